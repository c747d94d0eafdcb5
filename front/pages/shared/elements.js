// Builds elements. A text becomes a text node, so nothing that comes from outside is ever read as markup.

export function element(tag, attributes, ...children) {
    const node = document.createElement(tag);
    for (const [name, value] of Object.entries(attributes ?? {})) {
        set(node, name, value);
    }
    return append(node, children);
}

function set(node, name, value) {
    if (value === null || value === undefined || value === false) {
        return;
    }
    if (name.startsWith("on")) {
        node.addEventListener(name.slice(2), value);
    } else {
        node.setAttribute(name, value === true ? "" : String(value));
    }
}

export function append(node, children) {
    for (const child of children.flat(Infinity)) {
        if (child !== null && child !== undefined && child !== false) {
            node.append(child instanceof Node ? child : String(child));
        }
    }
    return node;
}

export function fill(node, ...children) {
    node.replaceChildren();
    return append(node, children);
}

let used = 0;

// an id that no other element of the page has
export function freshId(start) {
    used += 1;
    return `${start}-${used}`;
}

export function link(href, text, attributes) {
    return element("a", {href, ...attributes}, text);
}

export function button(text, onclick, attributes) {
    return element("button", {type: "button", class: "btn btn-outline-primary", onclick, ...attributes}, text);
}

export function spinner(text) {
    const turning = element("span", {class: "spinner-border spinner-border-sm me-2", "aria-hidden": "true"});
    return element("p", {class: "text-muted py-3", role: "status"}, turning, text);
}

export function emptyState(text, ...more) {
    return element("div", {class: "empty-state"}, element("p", {class: "mb-0"}, text), more);
}

export function alertBox(kind, ...children) {
    return element("div", {class: `alert alert-${kind}`, role: "alert"}, children);
}

export function card(title, ...children) {
    const heading = title && element("h2", {class: "card-title h6"}, title);
    return element("section", {class: "card"}, element("div", {class: "card-body"}, heading, children));
}
