// A text as a code that a camera reads (QR), by Debian's library qrcode-generator.
import {loadLibrary} from "../shared/api.js";

const SVG = "http://www.w3.org/2000/svg";
const QUIET = 4;  // modules of white round the code, as the standard asks for

function svg(tag, attributes, ...children) {
    const node = document.createElementNS(SVG, tag);
    Object.entries(attributes).forEach(([name, value]) => node.setAttribute(name, value));
    node.append(...children);
    return node;
}

// Where a text has more than ASCII it begins with the mark of UTF-8: some readers take it for another encoding without.
function isPlain(text) {
    return /^[\n\x20-\x7e]*$/.test(text);
}

// label: what the picture is, in words. It is black on white also in the dark.
export async function codeOf(text, label) {
    await loadLibrary("/lib/qrcode/qrcode.js");
    qrcode.stringToBytes = qrcode.stringToBytesFuncs["UTF-8"];
    const code = qrcode(0, "M");
    code.addData(isPlain(text) ? text : `\ufeff${text}`);
    code.make();
    const size = code.getModuleCount();
    const places = Array.from({length: size * size}, (_, i) => [Math.floor(i / size), i % size]);
    const path = places.filter(([row, column]) => code.isDark(row, column))
                     .map(([row, column]) => `M${column + QUIET} ${row + QUIET}h1v1h-1z`)
                     .join("");
    const whole = size + 2 * QUIET;
    return svg(
        "svg", {class: "code", viewBox: `0 0 ${whole} ${whole}`, role: "img", "aria-label": label,
                "shape-rendering": "crispEdges"},
        svg("rect", {width: whole, height: whole, fill: "#fff"}), svg("path", {d: path, fill: "#000"}));
}
