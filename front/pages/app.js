// The frame of all pages: who is signed in, the way to each page, and which page the address names.
import {alertBox, button, element, fill, link, spinner} from "./shared/elements.js";
import {leavePage, Problem, whoAmI} from "./shared/api.js";
import {beginSession, endSession, session, HEAD_OFFICE, MANAGER, OFFICER, TELLER} from "./shared/session.js";
import {followHistory, leaveDialog, note} from "./shared/dialogs.js";
import {adoptOlder, unsentLines, whenDraftsChange} from "./shared/drafts.js";
import {institution, learnInstitution, recallInstitution} from "./shared/institution.js";
import {keptWords, whenKeptChanges} from "./shared/kept.js";
import {refusalBox, refusalLine, showRefusal} from "./shared/refusals.js";
import {officeNamed, offices} from "./shared/desk.js";
import {hasLists} from "./shared/lists.js";
import {findBox} from "./shared/find-box.js";
import {leaveForSignIn, ownActs} from "./shared/person.js";
import {LANGUAGES, chooseLanguage, language, locale, say, showDay} from "./shared/words.js";

// each in a file of views/ of its name, loaded once it is shown
const PAGES = [
    "today", "clients", "client", "loans", "loan", "waivers", "statement", "round", "kept", "pack", "arrears",
    "penalties", "catalogue", "people", "journal", "takings"
];
const WITHOUT_DESK = ["kept", "pack"];  // what they show is on this phone
const WAYS = [
    ["today", "takings"], ["clients", "client"], ["loans", "loan", "waivers"], ["round", "kept", "pack"],
    ["arrears", "penalties"], ["catalogue"], ["people", "journal"]
];
const ROLES = {
    [TELLER]: "teller",
    [OFFICER]: "officer",
    [MANAGER]: "manager",
    [HEAD_OFFICE]: "head"
};

const SLOW = 5000;  // milliseconds after which one may go on without waiting for the desk

const main = element("main", {id: "main", class: "container-xl py-3 py-md-4", tabindex: "-1"});

let without = null;  // why the pages were opened without the desk

// #/loan/0005-000001 names the page loan, and hands it the rest. Without the desk a round is the one on this phone.
function place() {
    const [name, ...rest] = location.hash.replace(/^#\/?/, "").split("/");
    const known = PAGES.includes(name) ? name : "today";
    return {name: without !== null && known === "round" ? "kept" : known, rest: rest.map(decodeURIComponent)};
}

async function load(name) {
    try {
        return (await import(`./views/${name}.js`))[name];
    } catch (problem) {
        throw problem instanceof TypeError ? new Problem({}) : problem;  // no reply came
    }
}

let shown = null;

async function showPage() {
    leavePage();
    leaveDialog();
    const {name, rest} = place();
    const page = element("div", {class: `page page-${name}`}, spinner(say("loading")));
    fill(main, page);
    markWay(name);
    const isFirst = shown === null;
    shown = page;
    try {
        if (without !== null && !WITHOUT_DESK.includes(name)) {
            showWithout(page, name);
        } else {
            await (await load(name))(page, ...rest);
        }
    } catch (problem) {
        if (shown === page) {
            showRefusal(page, problem, showPage);
        }
    }
    if (shown === page) {
        const title = page.querySelector("h1");
        document.title = [title?.firstChild.textContent, institution.name].filter(Boolean).join(" · ");
        // what stands at the foot of each printed page, beside its number (desk.css)
        const foot = [institution.name, title?.firstChild.textContent].filter(Boolean).join(" · ");
        document.documentElement.style.setProperty("--page-foot", JSON.stringify(foot));
        if (!isFirst && title && !page.contains(document.activeElement)) {
            title.focus({preventScroll: true});
        }
    }
}

// What needs the desk says that there is no network, and what can be done.
function showWithout(page, name) {
    const way = WAYS.find((names) => names.includes(name))?.[0] ?? "loans";  // where a statement belongs to
    const words = without.hasNoReply ?
        alertBox("info", element("p", {class: "fw-semibold mb-1"}, say("without.what")), say("without.do")) :
        refusalBox(without);
    fill(
        page, element("h1", {class: "h3", tabindex: "-1"}, say(`way.${way}`)), words,
        element(
            "div", {class: "page-actions"}, link("#/kept", say("kept.title"), {class: "btn btn-primary"}),
            link("#/pack", say("pack.title"), {class: "btn btn-outline-primary"}),
            button(say(without.hasNoReply ? "without.again" : "again"), begin)));
}

// The way to the page that is shown shows it anew.
function showAgain(event) {
    if (event.currentTarget.hash === location.hash) {
        showPage();
    }
}

function markWay(name) {
    for (const way of document.querySelectorAll("#ways .nav-link")) {
        const isHere = WAYS.some((names) => names[0] === way.dataset.way && names.includes(name));
        way.classList.toggle("active", isHere);
        if (isHere) {
            way.setAttribute("aria-current", "page");
        } else {
            way.removeAttribute("aria-current");
        }
    }
    showMenu(false);
}

// The ways of a phone stand in a menu, which its button opens and closes.
function showMenu(isShown) {
    document.getElementById("menu").classList.toggle("show", isShown);
    document.querySelector(".navbar-toggler").setAttribute("aria-expanded", String(isShown));
}

function toggleMenu() {
    showMenu(!document.getElementById("menu").classList.contains("show"));
}

function languageChoice() {
    const options = LANGUAGES.map(
        ([name, words]) => element("option", {value: name, selected: name === language, lang: name}, words));
    const select = element(
        "select", {class: "form-select form-select-sm", id: "language", onchange: () => chooseLanguage(select.value)},
        options);
    return [element("label", {class: "visually-hidden", "for": "language"}, say("language")), select];
}

function person(officeName) {
    return element(
        "div", {class: "person"}, element("div", {}, `${session.user} · ${say(`role.${ROLES[session.rank]}`)}`),
        element("div", {class: "person-office"}, `${session.staff} ${officeName}`));
}

// end: what stands at the bar's end, before the choice of a language; finder: the box that finds, where there is one
function topBar(dayWords, end, finder) {
    const ways = WAYS.map(
        ([name]) => element(
            "li", {class: "nav-item"},
            link(`#/${name}`, say(`way.${name}`), {class: "nav-link", "data-way": name, onclick: showAgain})));
    const toggler = element(
        "button", {
            class: "navbar-toggler",
            type: "button",
            "aria-controls": "menu",
            "aria-expanded": "false",
            "aria-label": say("menu"),
            onclick: toggleMenu,
        },
        element("span", {class: "navbar-toggler-icon"}));
    const day = element(
        "span", {class: "business-day", id: "business-day", title: say("business-day")},
        element("span", {class: "visually-hidden"}, `${say("business-day")} `),
        element("span", {id: "day-shown"}, dayWords));
    const inner = element(
        "div", {class: "collapse navbar-collapse", id: "menu"},
        element("ul", {class: "navbar-nav me-auto", id: "ways"}, ways),
        element("div", {class: "bar-end"}, end, languageChoice()));
    return element(
        "header", {class: "bar d-print-none"},
        element(
            "nav", {class: "navbar navbar-expand-lg navbar-dark container-xl", "aria-label": say("ways")},
            link("#/today", institution.name, {class: "navbar-brand"}), day, toggler, finder, inner));
}

// Each page tells what was typed into rounds and not sent, in this browser and on this phone, and leads there.
const unsent = element("div", {class: "unsent d-print-none", role: "status"});

let telling = null;

// What is changed in one go is told in one.
function showUnsent() {
    telling ??= Promise.resolve().then(() => {
        telling = null;
        return tellUnsent();
    });
    return telling;
}

async function tellUnsent() {
    const words = keptWords(session.staff !== "").catch(() => null);
    const [list, kept] = await Promise.all([without === null ? offices() : null, words]);
    const lines = [...unsentLines(list), kept].filter(Boolean);
    fill(unsent, lines.map(({href, words}) => element("div", {class: "container-xl"}, link(href, words))));
}

function showNewDay() {
    document.getElementById("day-shown").textContent = showDay(session.day);
}

// What went wrong while something was read in the background, or after a question, is told in a corner of the page.
function tellProblem(event) {
    const problem = event.reason;
    if (problem instanceof Problem) {
        event.preventDefault();
        if (problem.front !== "left") {
            note(refusalLine(problem));
        }
    }
}

function skipLink() {
    const skip = () => main.focus();
    return button(say("skip"), skip, {class: "btn btn-primary skip-link"});
}

// The frame, and in it the page that the address names.
async function showFrame(bar) {
    const printed = element("div", {class: "institution d-none d-print-block"}, institution.name);
    fill(document.getElementById("desk"), skipLink(), bar, unsent, printed, main);
    document.documentElement.dataset.locale = locale;
    window.addEventListener("hashchange", showPage);
    adoptOlder();
    whenDraftsChange(showUnsent);
    whenKeptChanges(showUnsent);
    window.addEventListener("kept-phone", showUnsent);
    await showUnsent();
    followHistory();
    window.addEventListener("desk-day", showNewDay);
    window.addEventListener("desk-begin", begin);
    window.addEventListener("online", beginUnasked);
    window.addEventListener("desk-look", lookForDesk);
    window.addEventListener("unhandledrejection", tellProblem);
    await showPage();
}

let attempt = 0;  // a later beginning, or going on without the desk, takes the place of those before

async function begin() {
    attempt += 1;
    const own = attempt;
    const desk = document.getElementById("desk");
    document.documentElement.lang = language;
    const waiting = element("div", {class: "container py-5"}, spinner(say("loading")));
    fill(desk, waiting);
    const offer = () => waiting.append(button(say("without.go"), () => beginWithout(new Problem({}))));
    const clock = setTimeout(offer, SLOW);
    try {
        await Promise.all([learnInstitution(), beginSession(), load(place().name)]);
        const [office, isListed] = await Promise.all([officeNamed(session.office), hasLists()]);
        if (own === attempt) {
            without = null;
            const end = [person(office?.name ?? ""), ownActs(session)];
            await showFrame(topBar(showDay(session.day), end, isListed ? findBox() : null));
        }
    } catch (problem) {
        if (own === attempt) {
            await goOnAfter(problem, desk);
        }
    } finally {
        clearTimeout(clock);
    }
}

async function goOnAfter(problem, desk) {
    if (problem.front === "password" && await leaveForSignIn()) {
        return;
    }
    if (problem instanceof Problem && problem.isLost) {
        await beginWithout(problem);
    } else {
        showRefusal(fill(desk, element("div", {class: "container py-5"})).firstChild, problem, begin);
    }
}

// The pages without the desk: what is kept on this phone, whoever is signed in.
async function beginWithout(problem) {
    attempt += 1;
    without = problem;
    endSession();
    recallInstitution();
    await showFrame(topBar(say(problem.hasNoReply ? "without.network" : "without.desk"), null, null));
}

// The network is back: the desk is begun with, unless something is being typed or asked.
function beginUnasked() {
    if (without !== null && !document.activeElement.matches("input, select, textarea, .modal, .modal *")) {
        begin();
    }
}

// Looks whether the desk answers again, without a word where it doesn't.
async function lookForDesk() {
    if (without !== null && await whoAmI().then(() => true, () => false)) {
        beginUnasked();
    }
}

// Once the page is there, its files are kept for a time without a network. Only a safe address has a worker.
async function keepPages() {
    try {
        await navigator.serviceWorker?.register("/worker.js", {updateViaCache: "none"});
    } catch (problem) {
        console.warn("the pages are not kept", problem);  // they work without it, as long as there is a network
    }
}

await begin();
await keepPages();
