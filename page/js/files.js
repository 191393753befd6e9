// Files that are read, and those that are given to the browser to keep.
import { SvgPaint } from "./paint.js";
import { element } from "./table.js";

const KEPT = 10_000;

export function download(name, blob) {
  const link = element("a", { href: URL.createObjectURL(blob), download: name });
  link.click();
  setTimeout(() => URL.revokeObjectURL(link.href), KEPT);
}

/** The state with files in it: scenarios end with `.toml`, test scripts with `.test`, and any other is a script. A scenario that comes
 * alone has no script. */
export async function withFiles(state, files) {
  const found = { ...state }, texts = await Promise.all([...files].map(async (file) => ({ name: file.name, text: await file.text() })));
  for (const { name, text } of texts.filter((it) => it.name.endsWith(".toml"))) {
    Object.assign(found, { scenario: text, name: name.slice(0, -5) }, texts.length === 1 ? { script: "", test: "" } : {});
  }
  for (const { name, text } of texts.filter((it) => !it.name.endsWith(".toml"))) found[name.endsWith(".test") ? "test" : "script"] = text;
  return found;
}

export function saveTexts({ name, scenario, script, test }) {
  for (const [end, text] of [["toml", scenario], ["edits", script], ["test", test]]) if (text) download(`${name}.${end}`, new Blob([text]));
}

export function savePng(picture, name) {
  picture.paintNow();
  picture.canvas.toBlob((blob) => download(`${name}.png`, blob), "image/png");
}

export function saveSvg(picture, name) {
  const { clientWidth, clientHeight } = picture.canvas, paint = new SvgPaint(clientWidth, clientHeight);
  picture.paintTo(paint, clientWidth, clientHeight);
  download(`${name}.svg`, new Blob([paint.whole], { type: "image/svg+xml" }));
}
