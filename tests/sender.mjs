// Sends standard input to a tus server as one stream whose length nobody knows before its end, and fetches it back:
//
//     node tests/sender.mjs URL <given >fetched
//
// What the server refuses is said on standard error, with its status and words, and the exit status is 1.
import { Readable } from "node:stream";
import { pipeline } from "node:stream/promises";

const MEDIA = { "Content-Type": "application/offset+octet-stream" };

// The answer to a request with these fields; one that refuses is thrown.
async function ask(method, url, fields = {}, body = undefined) {
    const headers = { "Tus-Resumable": "1.0.0", ...fields };
    const answer = await fetch(url, { method, headers, body, duplex: "half" });
    if (!answer.ok) {
        throw new Error(`${answer.status}: ${(await answer.text()).trim()}`);
    }
    return answer;
}

try {
    const made = await ask("POST", process.argv[2], { "Upload-Defer-Length": "1" });
    const url = new URL(made.headers.get("Location"), made.url);
    const sent = await ask("PATCH", url, { ...MEDIA, "Upload-Offset": "0" }, Readable.toWeb(process.stdin));
    const reached = sent.headers.get("Upload-Offset");
    await ask("PATCH", url, { ...MEDIA, "Upload-Offset": reached, "Upload-Length": reached });
    const fetched = await ask("GET", url);
    await pipeline(Readable.fromWeb(fetched.body), process.stdout);
} catch (fault) {
    console.error(`sender: ${(fault.cause ?? fault).message}`);
    process.exit(1);
}
