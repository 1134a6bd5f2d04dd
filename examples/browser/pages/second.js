"use strict";

async function askAll() {
    await ask("old");
    await ask("lines");
    await ask("sum", { method: "POST", body: "1 2 3 4" });
    await ask("missing");
    await document.fonts.ready;
}

addEventListener("load", () => askAll().then(() => { document.title = "done"; }, (error) => say(String(error))));
