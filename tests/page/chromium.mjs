// A headless Chromium with one page, driven over its debugging pipe: no port, no driver, no package.
import { spawn } from "node:child_process";
import fs from "node:fs";
import os from "node:os";
import path from "node:path";

export const sleep = ms => new Promise(done => setTimeout(done, ms));

const FLAGS = [
  "--headless=new", "--remote-debugging-pipe", "--no-sandbox", "--disable-gpu", "--hide-scrollbars", "--no-first-run", "--disable-extensions",
  "--disable-background-networking", "--disable-component-update", "--force-color-profile=srgb",
];
const CODES = { Tab: 9, Enter: 13, Escape: 27, " ": 32, End: 35, Home: 36, ArrowLeft: 37, ArrowUp: 38, ArrowRight: 39, ArrowDown: 40, Delete: 46 };

export async function chromium(program) {
  const profile = fs.mkdtempSync(path.join(os.tmpdir(), "page-"));
  const child = spawn(program, [...FLAGS, `--user-data-dir=${profile}`, "about:blank"], { stdio: ["ignore", "ignore", "ignore", "pipe", "pipe"] });
  const [, , , to, from] = child.stdio, waiting = new Map();
  const said = [], asked = []; // what the page said on its console, and what it requested
  let next = 0, rest = "", closing = false, sessionId;
  process.on("exit", () => child.kill());
  child.on("exit", status => {
    if (closing) return;
    console.log(`page: ${program} ended with status ${status}; start it by hand to see why: ${program} ${FLAGS.join(" ")}`);
    process.exit(1);
  });

  // messages are JSON, each ended by a NUL
  function receive(message) {
    const { id, method, params } = message;
    if (waiting.has(id)) {
      const { resolve, reject } = waiting.get(id);
      waiting.delete(id);
      message.error ? reject(new Error(message.error.message)) : resolve(message.result);
    } else if (method === "Runtime.exceptionThrown") said.push(params.exceptionDetails.exception?.description ?? params.exceptionDetails.text);
    else if (method === "Log.entryAdded" && params.entry.level === "error") said.push(params.entry.text);
    else if (method === "Network.requestWillBeSent") asked.push(params.request.url);
  }
  from.setEncoding("utf8");
  from.on("data", chunk => {
    const parts = (rest + chunk).split("\0");
    rest = parts.pop();
    for (const part of parts) receive(JSON.parse(part));
  });
  const send = (method, params = {}) =>
    new Promise((resolve, reject) => {
      waiting.set(++next, { resolve, reject });
      to.write(`${JSON.stringify({ id: next, method, params, sessionId })}\0`);
    });
  const { targetInfos } = await send("Target.getTargets");
  ({ sessionId } = await send("Target.attachToTarget", { targetId: targetInfos.find(target => target.type === "page").targetId, flatten: true }));
  for (const part of ["Page", "Runtime", "Log", "Network"]) await send(`${part}.enable`);

  const mouse = (type, x, y, more = {}) => send("Input.dispatchMouseEvent", { type, x, y, button: "none", ...more });
  const touch = (type, ...points) => send("Input.dispatchTouchEvent", { type, touchPoints: points.map(([x, y], id) => ({ x, y, id })) });
  const web = {
    send, said, asked, mouse, touch,

    // Runs code in the page, or a function on arguments that are plain data, and returns its result.
    async run(code, ...given) {
      const expression = typeof code === "function" ? `(${code})(${given.map(value => JSON.stringify(value)).join(", ")})` : code;
      const { result, exceptionDetails } = await send("Runtime.evaluate", { expression, awaitPromise: true, returnByValue: true });
      if (exceptionDetails) throw new Error(exceptionDetails.exception?.description ?? exceptionDetails.text);
      return result.value;
    },
    size: (width, height, deviceScaleFactor = 1) => send("Emulation.setDeviceMetricsOverride", { width, height, deviceScaleFactor, mobile: false }),
    async open(url, ready = "document.documentElement?.dataset.ready === 'yes'") {
      await send("Page.navigate", { url: "about:blank" });
      await send("Page.navigate", { url });
      for (let k = 0; k < 200 && !(await web.run(ready).catch(() => false)); k++) await sleep(25);
    },
    async click(x, y) {
      await mouse("mousePressed", x, y, { button: "left", buttons: 1, clickCount: 1 });
      await mouse("mouseReleased", x, y, { button: "left", clickCount: 1 });
    },
    async drag(x, y, u, v) {
      await mouse("mousePressed", x, y, { button: "left", buttons: 1, clickCount: 1 });
      for (let k = 1; k <= 8; k++) await mouse("mouseMoved", x + ((u - x) * k) / 8, y + ((v - y) * k) / 8, { button: "left", buttons: 1 });
      await mouse("mouseReleased", u, v, { button: "left", clickCount: 1 });
    },
    async key(key, more = {}) {
      const event = { key, code: key === " " ? "Space" : key, windowsVirtualKeyCode: CODES[key] ?? key.charCodeAt(0), ...more };
      const text = key === "Enter" ? "\r" : key.length === 1 ? key : undefined;
      await send("Input.dispatchKeyEvent", { type: "keyDown", ...event, text });
      await send("Input.dispatchKeyEvent", { type: "keyUp", ...event });
    },
    // Types a text in place of the plan.
    async type(text) {
      await web.run("document.getElementById('plan').focus(); document.getElementById('plan').select()");
      if (text) await send("Input.insertText", { text });
      else await web.key("Delete");
    },
    async drop(x, y, ...files) {
      const data = { items: [], files, dragOperationsMask: 1 };
      for (const type of ["dragEnter", "dragOver", "drop"]) await send("Input.dispatchDragEvent", { type, x, y, data });
      await sleep(150);
    },
    async shot(file, whole = false) {
      const { data } = await send("Page.captureScreenshot", { format: "png", captureBeyondViewport: whole });
      fs.writeFileSync(file, Buffer.from(data, "base64"));
    },
    async close() {
      closing = true;
      await Promise.race([send("Browser.close").catch(() => {}), sleep(2000)]);
      for (let k = 0; k < 100 && child.exitCode === null; k++) await sleep(20);
      if (child.exitCode === null) child.kill();
      fs.rmSync(profile, { recursive: true, force: true, maxRetries: 5, retryDelay: 100 });
    },
  };
  return web;
}
