// Keeps one icu_locale_stream and asks it each word of the command line:
//     node examples/service/ask.mjs ./icu_locale_stream zh-CN en-USA
import { spawn } from "node:child_process";
import { createInterface } from "node:readline";

const [program, ...tags] = process.argv.slice(2);
const stream = spawn(program, ["maximize"], { stdio: ["pipe", "pipe", "inherit"] });
const answers = createInterface({ input: stream.stdout })[Symbol.asyncIterator]();
for (const tag of tags) {
    stream.stdin.write(tag + "\n");
    console.log((await answers.next()).value);
}
stream.stdin.end();
