// What checks/browser/run asks of a page or a picture, in a world of the browser of its own: questions, most of which answer a
// list of what is wrong. They are made anew for each look, since they keep what they found.
globalThis.questions = () => {
    "use strict";

    const SILENT = "head, style, script, title, desc, metadata";
    const short = (text) => {
        const one = text.trimStart().slice(0, 200).replace(/\s+/g, " ").trim();
        return JSON.stringify(one.length > 40 ? one.slice(0, 37) + "..." : one);
    };
    const named = (element) => element.localName + (element.id ? "#" + element.id : "");
    const body = () => document.body ?? document.documentElement;

    // Keeps what a function of an element gave.
    const once = (made) => {
        const kept = new Map();
        return (element) => {
            if (!kept.has(element)) kept.set(element, made(element));
            return kept.get(element);
        };
    };

    // ---- texts and where they stand

    function texts() {
        const walk = document.createTreeWalker(body(), NodeFilter.SHOW_TEXT);
        const found = [];
        while (walk.nextNode()) {
            const node = walk.currentNode;
            if (node.data.trim() && !node.parentElement.closest(SILENT)) found.push(node);
        }
        return found;
    }

    function rectangles(node) {
        const range = document.createRange();
        range.selectNodeContents(node);
        return [...range.getClientRects()];
    }

    const LOOKED_AT = { opacityProperty: true, visibilityProperty: true };
    const isShown = (node) => node.parentElement.checkVisibility(LOOKED_AT) && rectangles(node).length > 0;
    const boxes = (node) => rectangles(node).filter((box) => box.width >= 1 && box.height >= 1);

    // ---- overlaps

    // How far, in units of the page, two boxes may stand in each other.
    const ACROSS = 1;
    const DOWN = 2;

    function overlaps() {
        const all = texts().filter(isShown).flatMap((node) => boxes(node).map((box) => ({ box, node })));
        all.sort((one, other) => one.box.top - other.box.top);
        const wrong = [];
        let open = [];
        for (const one of all) {
            open = open.filter((other) => other.box.bottom > one.box.top + DOWN);
            for (const other of open) {
                const isAcross = Math.min(one.box.right, other.box.right) > Math.max(one.box.left, other.box.left) + ACROSS;
                const isDown = Math.min(one.box.bottom, other.box.bottom) > one.box.top + DOWN;
                if (!isAcross || !isDown) continue;
                wrong.push(`${short(other.node.data)} and ${short(one.node.data)} stand in each other at ${at(one.box)}`);
            }
            open.push(one);
        }
        return wrong;
    }

    const at = (box) => `${Math.round(box.left + scrollX)}, ${Math.round(box.top + scrollY)}`;

    // ---- lines through texts

    // The boxes of a shape. A line with two bends has one for each of its parts, since one for all would be near many texts.
    const BENT = /^M(\d+) (\d+)L(\d+) (\d+)V(\d+)H(\d+)$/;

    function boxesOf(shape) {
        const bent = shape.getAttribute("d")?.match(BENT);
        if (!bent) return [shape.getBoundingClientRect()];
        const [x, y, u, v, w, z] = bent.slice(1).map(Number);
        const matrix = shape.getScreenCTM();
        const ends = [[x, y], [u, v], [u, w], [z, w]].map(([x, y]) => new DOMPoint(x, y).matrixTransform(matrix));
        return ends.slice(1).map((end, place) => ({
            left: Math.min(end.x, ends[place].x),
            right: Math.max(end.x, ends[place].x),
            top: Math.min(end.y, ends[place].y),
            bottom: Math.max(end.y, ends[place].y),
        }));
    }

    // What is drawn in a picture but texts, with where it stands and how a point of the window is told to it.
    const drawn = once((svg) =>
        [...svg.querySelectorAll("path, line, polyline, rect, circle, ellipse, polygon")].map((shape) => ({
            shape,
            boxes: boxesOf(shape),
            back: shape.getScreenCTM().inverse(),
            isStroked: getComputedStyle(shape).stroke !== "none",
            isFilled: getComputedStyle(shape).fill !== "none",
        })),
    );

    // Points of a text's box, but for its rim.
    function points(box) {
        const found = [];
        for (const part of [0.3, 0.5, 0.7]) {
            for (let x = box.left + 1; x < box.right - 1; x += 2) found.push(new DOMPoint(x, box.top + part * box.height));
        }
        return found;
    }

    const isNear = (one, other) =>
        one.left < other.right + 2 && other.left < one.right + 2 && one.top < other.bottom + 2 && other.top < one.bottom + 2;

    // Whether a line goes through a box, or a shape covers a part of it: one that covers all of it is its ground.
    function isStruck(box, { shape, back, isStroked, isFilled }) {
        const inside = points(box).map((point) => point.matrixTransform(back));
        if (isStroked && inside.some((point) => shape.isPointInStroke(point))) return true;
        const covered = isFilled ? inside.filter((point) => shape.isPointInFill(point)).length : 0;
        return covered > 0 && covered < inside.length;
    }

    function strikes() {
        const wrong = [];
        for (const node of texts().filter((node) => node.parentElement instanceof SVGElement && isShown(node))) {
            for (const box of boxes(node)) {
                const by = drawn(node.parentElement.ownerSVGElement).find((one) => one.boxes.some((part) => isNear(box, part)) && isStruck(box, one));
                if (by) wrong.push(`a ${by.shape.getAttribute("class") ?? by.shape.localName} goes through ${short(node.data)} at ${at(box)}`);
            }
        }
        return wrong;
    }

    // Has texts of pictures in one of the widest of the fonts in use.
    function widen() {
        const sheet = new CSSStyleSheet();
        sheet.replaceSync('text, tspan { font-family: "DejaVu Sans", Verdana !important }');
        document.adoptedStyleSheets = [sheet];
        return [];
    }

    // ---- cuts

    const cutter = once((element) => {
        const style = getComputedStyle(element);
        const isOuter = element instanceof SVGSVGElement && !(element.parentElement instanceof SVGElement);
        const isRoot = element === document.documentElement;
        const kind = (overflow) => {
            // (a picture on its own is cut where another page shows it)
            if (isOuter && (isRoot || overflow !== "visible")) return "hidden";
            // (the root's and the body's overflow is the window's)
            return isRoot || element === document.body || overflow === "visible" ? "" : overflow;
        };
        return { across: kind(style.overflowX), down: kind(style.overflowY), box: element.getBoundingClientRect() };
    });

    const isCutting = (overflow) => overflow === "hidden" || overflow === "clip";

    // Whether an element above cuts a box, and which.
    function cutBy(element, box) {
        let { left, right, top, bottom } = box;
        for (let above = element; above; above = above.parentElement) {
            const { across, down, box: inside } = cutter(above);
            if (isCutting(across) && (left < inside.left - 1 || right > inside.right + 1)) return above;
            if (isCutting(down) && (top < inside.top - 1 || bottom > inside.bottom + 1)) return above;
            // (what a reader can scroll to is not cut further up)
            if (across) [left, right] = [inside.left, inside.right];
            if (down) [top, bottom] = [inside.top, inside.bottom];
        }
        return left + scrollX < -1 || top + scrollY < -1 ? document.documentElement : null;
    }

    function cuts() {
        const wrong = [];
        for (const node of texts().filter(isShown)) {
            for (const box of boxes(node)) {
                const by = cutBy(node.parentElement, box);
                if (by) wrong.push(`${short(node.data)} is cut by ${named(by)} at ${at(box)}`);
            }
        }
        return wrong;
    }

    // ---- words that stand on two lines

    // No word of so few letters needs to be broken.
    const SHORT_WORDS = /(?<![\p{L}\p{N}_.])\p{L}{2,12}(?![\p{L}\p{N}_.])/gu;

    function breaks() {
        const wrong = [];
        const range = document.createRange();
        for (const node of texts().filter((node) => isShown(node) && !node.parentElement.closest("pre, svg"))) {
            for (const word of node.data.matchAll(SHORT_WORDS)) {
                range.setStart(node, word.index);
                range.setEnd(node, word.index + word[0].length);
                const lines = new Set([...range.getClientRects()].map((box) => Math.round(box.top)));
                if (lines.size > 1) wrong.push(`the word ${word[0]} is broken in ${short(node.data)}`);
            }
        }
        return wrong;
    }

    // ---- scrolling

    function scrolls() {
        const page = document.scrollingElement ?? document.documentElement;
        const wrong = [];
        if (page.scrollWidth > page.clientWidth) {
            const isFar = (element) => element.checkVisibility() && element.getBoundingClientRect().right > page.clientWidth + 1;
            const far = [...body().querySelectorAll("*")].find(isFar);
            const by = far ? `, by ${named(far)}` : "";
            wrong.push(`the page is ${page.scrollWidth} wide in a window of ${page.clientWidth}${by}`);
        }
        for (const element of body().querySelectorAll("*")) {
            const isWide = element.scrollWidth > element.clientWidth && /auto|scroll/.test(getComputedStyle(element).overflowX);
            if (isWide && element.tabIndex < 0) wrong.push(`${named(element)} scrolls, and no key reaches it`);
        }
        return wrong;
    }

    // ---- contrast (WCAG 2.1, 1.4.3)

    const isPaper = () => matchMedia("print").matches;
    const isDark = () => matchMedia("(prefers-color-scheme: dark)").matches && !isPaper();

    function colour(words) {
        const numbers = words.match(/^rgba?\(([^)]*)\)$/);
        if (!numbers) throw new Error(`a colour that is not understood: ${words}`);
        const [red, green, blue, alpha] = numbers[1].split(/[\s,\/]+/).map(Number);
        return { red, green, blue, alpha: alpha ?? 1 };
    }

    const over = (above, below) => {
        const mixed = (one, other) => above.alpha * one + (1 - above.alpha) * other;
        return { red: mixed(above.red, below.red), green: mixed(above.green, below.green), blue: mixed(above.blue, below.blue), alpha: 1 };
    };

    function light({ red, green, blue }) {
        const linear = (part) => (part <= 0.04045 ? part / 12.92 : ((part + 0.055) / 1.055) ** 2.4);
        const [r, g, b] = [red, green, blue].map((part) => linear(part / 255));
        return 0.2126 * r + 0.7152 * g + 0.0722 * b;
    }

    function contrast(one, other) {
        const [less, more] = [light(one), light(other)].sort((a, b) => a - b);
        return (more + 0.05) / (less + 0.05);
    }

    // The ground of an element: the colours of those above, which are not printed, and of shapes that are drawn before it and on
    // which its middle stands.
    function ground(element) {
        const layers = [];
        for (let above = element; above; above = above.parentElement) {
            if (above instanceof SVGTextElement) layers.push(...shapesBelow(above));
            if (!isPaper()) layers.push(colour(getComputedStyle(above).backgroundColor));
        }
        const scheme = getComputedStyle(document.documentElement).colorScheme;
        const canvas = isDark() && scheme.includes("dark") ? "rgb(18, 18, 18)" : "rgb(255, 255, 255)";
        return layers.reverse().reduce((below, layer) => over(layer, below), colour(canvas));
    }

    const shapes = once((svg) =>
        [...svg.querySelectorAll("path, rect, circle, ellipse, polygon")]
            .map((shape) => ({ shape, style: getComputedStyle(shape), box: shape.getBoundingClientRect() }))
            .filter(({ style }) => style.fill.startsWith("rgb")),
    );

    function shapesBelow(element) {
        const box = element.getBoundingClientRect();
        const [x, y] = [(box.left + box.right) / 2, (box.top + box.bottom) / 2];
        const isBelow = ({ shape, box }) =>
            box.left <= x && x <= box.right && box.top <= y && y <= box.bottom &&
            shape.compareDocumentPosition(element) & Node.DOCUMENT_POSITION_FOLLOWING &&
            shape.isPointInFill(new DOMPoint(x, y).matrixTransform(shape.getScreenCTM().inverse()));
        const filled = ({ style }) => {
            const fill = colour(style.fill);
            return { ...fill, alpha: fill.alpha * style.fillOpacity * style.opacity };
        };
        return shapes(element.ownerSVGElement).filter(isBelow).map(filled).reverse();
    }

    function faint() {
        const wrong = new Set();
        for (const node of texts().filter(isShown)) {
            const element = node.parentElement;
            const style = getComputedStyle(element);
            const isDrawn = element instanceof SVGElement;
            const ink = colour(isDrawn ? style.fill : style.color);
            let alpha = ink.alpha * (isDrawn ? style.fillOpacity : 1);
            for (let above = element; above; above = above.parentElement) alpha *= getComputedStyle(above).opacity;
            const below = ground(element);
            const had = contrast(over({ ...ink, alpha }, below), below);
            const kind = `${named(element)} ${element.getAttribute("class") ?? ""}`.trim();
            if (had < 4.5) wrong.add(`${kind} has contrast ${had.toFixed(2)}, as ${short(node.data)}`);
        }
        return [...wrong];
    }

    // ---- what stands in it

    function structure() {
        const wrong = [];
        const isPage = document.body !== null && document.documentElement.localName === "html";
        if (isPage) {
            if (!document.documentElement.lang) wrong.push("no language is named");
            if (!document.title.trim()) wrong.push("it has no title");
            const policy = document.head.querySelector("meta[http-equiv=Content-Security-Policy]");
            const wide = document.head.querySelector("meta[name=viewport]");
            if (!wide?.content.includes("width=device-width")) wrong.push("no width of a phone is asked for");
            if (!policy?.content.includes("default-src 'none'")) wrong.push("no policy forbids what is not in the page");
        }
        for (const element of document.querySelectorAll("script, iframe, object, embed, base, link, form")) {
            wrong.push(`${named(element)} stands in it`);
        }
        const ids = new Set();
        for (const element of document.querySelectorAll("*")) {
            for (const { name, value } of element.attributes) {
                if (name.startsWith("on")) wrong.push(`${named(element)} has a script in ${name}`);
                const isLost = name === "href" && value.startsWith("#") && !document.getElementById(value.slice(1));
                if (isLost) wrong.push(`a link leads to ${value}, which is not there`);
                if (name === "id" && ids.has(value)) wrong.push(`two elements are called ${value}`);
                if (name === "id") ids.add(value);
            }
        }
        for (const svg of document.querySelectorAll("svg")) {
            for (const part of ["title", "desc"]) {
                if (!svg.querySelector(`:scope > ${part}`)?.textContent.trim()) wrong.push(`a picture has no ${part}`);
            }
        }
        return wrong;
    }

    // The texts that are not shown, for a page on paper.
    const hidden = () => texts().filter((node) => !isShown(node)).map((node) => `${short(node.data)} is not shown`);

    // What the keys have reached.
    function focused() {
        const element = document.activeElement;
        if (!element || element === document.body || element === document.documentElement) return null;
        const style = getComputedStyle(element);
        const fold = element.localName === "summary" ? element.parentElement : null;
        const place = [...document.querySelectorAll("details")].indexOf(fold);
        const isSeen = style.outlineStyle !== "none" && parseFloat(style.outlineWidth) >= 1;
        return { name: `${named(element)} ${short(element.textContent)}`, isSeen, place, isOpen: fold?.open ?? null };
    }

    const folds = () => [...document.querySelectorAll("details")].map((fold) => fold.open);

    function open() {
        for (const fold of document.querySelectorAll("details")) fold.open = true;
    }

    const size = () => {
        const page = document.scrollingElement ?? document.documentElement;
        return { width: page.scrollWidth, height: page.scrollHeight, texts: texts().filter(isShown).length };
    };

    return { overlaps, strikes, widen, cuts, breaks, scrolls, faint, structure, hidden, focused, folds, open, size };
};
