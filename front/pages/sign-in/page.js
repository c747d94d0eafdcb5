// The page of the sign-in: name and password, a first password that must be changed, a code; and, for who is signed in,
// their own password (#password), their second factor (#code) and their people (#people). Another #.. is the way back.
import {alertBox, button, element, fill, freshId, link} from "../shared/elements.js";
import {keptWords} from "../shared/kept.js";
import {LANGUAGES, chooseLanguage, language, say} from "../shared/words.js";
import {asked, Refused, sendCode, signIn} from "./asking.js";
import {told, word} from "./words.js";

const main = document.getElementById("sign-in");
const kept = element("div", {class: "unsent", role: "status"});
const trouble = element("div", {"aria-live": "assertive"});
let user = "";

function field(label, attributes) {
    const id = freshId("field");
    const input = element("input", {class: "form-control", id, required: true, ...attributes});
    const node = element("div", {class: "mb-3"}, element("label", {class: "form-label", "for": id}, label), input);
    return {input, node};
}

function passwordField(label, autocomplete) {
    return field(label, {type: "password", autocomplete, maxlength: 72});
}

function codeField(label) {
    return field(label, {inputmode: "numeric", autocomplete: "one-time-code", pattern: "[0-9]{6}", maxlength: 6});
}

function tell(kind, text) {
    fill(trouble, alertBox(kind, text));
}

// a form whose fields' values are sent once, and whose refusal is told above it
function form(fields, action, send) {
    const submit = element("button", {type: "submit", class: "btn btn-primary"}, action);
    const node = element("form", {class: "sign-in-form"}, fields.map((each) => each.node), submit);
    node.addEventListener("submit", async (event) => {
        event.preventDefault();
        submit.disabled = true;
        fill(trouble);
        try {
            await send(...fields.map(({input}) => input.value));
        } catch (problem) {
            tell("danger", problem instanceof Refused ? told(problem.message) : told("other"));
            fields.at(-1).input.select();
        } finally {
            submit.disabled = false;
        }
    });
    return node;
}

function languageChoice() {
    const options = LANGUAGES.map(
        ([name, words]) => element("option", {value: name, selected: name === language, lang: name}, words));
    const choose = () => chooseLanguage(select.value);
    const select = element(
        "select",
        {class: "form-select form-select-sm w-auto", "aria-label": word("language"), onchange: choose}, options);
    return select;
}

function show(title, ...content) {
    fill(
        main, element("div", {class: "d-flex justify-content-between align-items-start mb-3"},
        element("h1", {class: "h3"}, title), languageChoice()), trouble, content);
    document.title = `${title} · microloan`;
    main.querySelector("input")?.focus();
}

// What waits on this phone is told here too. Without a network it opens, whoever is signed in.
async function showKept() {
    const waiting = (await keptWords().catch(() => null))?.words;
    const words = navigator.onLine ? waiting : link("/#/kept", waiting ?? say("kept.title"));
    fill(kept, words && element("div", {class: "container"}, words));
}

function goToDesk() {
    location.replace(`/${location.hash.startsWith("#/") ? location.hash : ""}`);
}

function showForm() {
    const fields = [
        field(word("name"), {autocomplete: "username", autocapitalize: "none", spellcheck: "false", maxlength: 32}),
        passwordField(word("password"), "current-password"),
    ];
    show(word("title"), element("div", {class: "col-md-5"}, form(fields, word("enter"), enter)));
}

async function enter(name, password) {
    user = name.trim().toLowerCase();
    try {
        const token = await signIn(user, password);
        if (token === null) {
            goToDesk();
        } else {
            showCode(token, password);
        }
    } catch (problem) {
        if (problem.message !== "25") {  // a first password, which must be changed
            throw problem;
        }
        showFirst(password);
    }
}

function showCode(token, password) {
    const code = codeField(word("code.ask"));
    const send = async (typed) => {
        try {
            await sendCode(user, token, typed);
        } catch (problem) {
            token = await signIn(user, password);  // each token is for one try
            throw problem;
        }
        goToDesk();
    };
    show(word("code"), element("div", {class: "col-md-5"}, form([code], word("code.enter"), send)));
}

function newPasswords(before, send) {
    const fresh = ["new", "again"].map((key) => passwordField(word(key), "new-password"));
    const fields = [...before, ...fresh];
    const checked = (...values) => {
        if (values.at(-1) !== values.at(-2)) {
            throw new Refused("differ");
        }
        return send(...values);
    };
    return element(
        "div", {class: "col-md-5"}, form(fields, word("change"), checked),
        element("p", {class: "form-text mt-3"}, word("rule")));
}

function showFirst(old) {
    const send = async (fresh) => {
        await asked("/session/password", {user, oldpassword: old, newpassword: fresh});
        await enter(user, fresh);
    };
    show(word("choose"), element("p", {}, word("choose.why")), newPasswords([], send));
}

function back() {
    return element("p", {class: "mt-4"}, link("/", word("back")));
}

function showOwnPassword() {
    const send = async (old, fresh) => {
        await asked("/session/password", {user, oldpassword: old, newpassword: fresh});
        showOwnPassword();
        tell("success", word("changed"));
    };
    show(say("own.password"), newPasswords([passwordField(word("old"), "current-password")], send), back());
}

async function showSecondFactor() {
    show(say("own.code"), back());
    const {secret, token} = await asked("/session/getkey", {});
    const address = `otpauth://totp/microloan:${user}?secret=${secret}&issuer=microloan`;
    const send = async (code) => {
        await asked("/session/verify", {token, code, TOTPName: "telephone"});
        show(say("own.code"), back());
        tell("success", word("code.kept"));
    };
    const grouped = secret.match(/.{1,4}/g).join(" ");
    show(
        say("own.code"), element("p", {}, word("code.why")),
        element("p", {}, `${word("code.key")}: `, element("code", {id: "key", class: "user-select-all"}, grouped)),
        element("p", {}, link(address, word("code.open"))),
        element("div", {class: "col-md-5"}, form([codeField(word("code.ask"))], word("code.keep"), send)), back());
}

function stateOf(person) {
    const marks = [person.locked && word("people.locked"), person.must_change && word("people.must-change")];
    return marks.filter(Boolean).join(", ");
}

async function showPeople() {
    const {people} = await asked("/people", undefined, "GET");
    if (people.length === 0) {
        show(say("own.people"), element("p", {}, word("people.none")), back());
        return;
    }
    const own = passwordField(word("people.own"), "current-password");
    const act = (person, path, done) => async () => {
        fill(trouble);
        try {
            const reply = await asked(path, {name: person.name, password: own.input.value});
            await showPeople();
            tell("success", word(done, {name: person.name, ...reply}));
        } catch (problem) {
            tell("danger", told(problem.message));
            own.input.select();
        }
    };
    show(
        say("own.people"), element("div", {class: "col-md-5"}, own.node),
        element("div", {class: "table-responsive"}, peopleTable(people, act)), back());
}

function peopleTable(people, act) {
    const small = {class: "btn btn-sm btn-outline-primary me-2"};
    const acts = (person) => [
        button(word("reset"), act(person, "/people/reset", "reset.done"), small),
        person.locked && button(word("unlock"), act(person, "/people/unlock", "unlock.done"), small),
    ];
    const cells = (person) => [person.name, person.staff, stateOf(person)].map((text) => element("td", {}, text));
    const rows = people.map(
        (person) => element("tr", {}, cells(person), element("td", {class: "text-end"}, acts(person))));
    const titles = [word("name"), word("people.staff"), word("people.state"), ""];
    const heads = titles.map((text) => element("th", {scope: "col"}, text));
    return element(
        "table", {class: "table align-middle"}, element("thead", {}, element("tr", {}, heads)),
        element("tbody", {}, rows));
}

const OWN_PAGES = {"#password": showOwnPassword, "#code": showSecondFactor, "#people": showPeople};

async function begin() {
    document.documentElement.lang = language;
    main.before(kept);
    showKept();
    const page = OWN_PAGES[location.hash];
    if (!page) {
        showForm();
        return;
    }
    try {
        user = (await asked("/me", undefined, "GET")).user;
        await page();
    } catch (problem) {
        if (problem.message === "password") {
            showForm();
            return;
        }
        tell("danger", told(problem.message));
    }
}

window.addEventListener("hashchange", begin);
window.addEventListener("online", showKept);
window.addEventListener("offline", showKept);
begin();
