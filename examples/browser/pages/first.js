"use strict";

// Says on the page what an address answered.
function say(text) {
    const line = document.createElement("li");
    line.textContent = text;
    document.getElementById("seen").append(line);
}

async function ask(name, options) {
    const answer = await fetch(name, options);
    say(`${options?.method ?? "GET"} ${name}: ${answer.status} ${(await answer.text()).trim().split("\n").join(", ")}`);
}
