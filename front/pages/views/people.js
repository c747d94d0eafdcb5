// Offices as a tree, and who works there: head office opens offices, managers enter staff.
import {alertBox, button, card, element, emptyState, fill, link} from "../shared/elements.js";
import {change} from "../shared/api.js";
import {HEAD_OFFICE, MANAGER, may, session} from "../shared/session.js";
import {asTree, offices} from "../shared/desk.js";
import {hasLists, staffOf} from "../shared/lists.js";
import {lacksJournal} from "./changes.js";
import {say} from "../shared/words.js";
import {officeChoice, pageHead, row, table} from "../shared/tables.js";
import {ask, note} from "../shared/dialogs.js";
import {choiceField, nameField, numberField} from "../shared/forms.js";
import {keptWriting, Writing} from "../shared/writing.js";

const ROLES = ["teller", "officer", "manager"];

export function people(page, office = session.office) {
    return showPeople(page, Number(office), null);
}

// office: the one whose staff is shown
async function showPeople(page, office, entered) {
    const [tree, isListed] = await Promise.all([offices(true).then(asTree), hasLists()]);
    const actions = [
        may(HEAD_OFFICE) && button(say("office.new"), () => newOffice(page, tree)),
        may(MANAGER) && button(say("staff.new"), () => newStaff(page, tree, office), {class: "btn btn-primary"})
    ];
    const listedWays = lacksJournal() ? ["people"] : ["people", "journal"];
    const ways = ["clients", "loans", ...(isListed ? listedWays : [])];
    const words = (way) => say({people: "staff", journal: "journal.title"}[way] ?? `way.${way}`);
    const rows = tree.map(
        ({number, name, depth}) => row([
            {head: element("span", {class: `level-${depth}`}, `${number} ${name}`)},
            ...ways.map((way) => link(`#/${way}/${number}`, words(way)))
        ]));
    const columns = [{words: say("office")}, ...ways.map((way) => ({words: words(way), isHidden: true}))];
    const staff = isListed ? await staffCard(tree, office) : element("p", {class: "mb-0"}, say("staff.no-list"));
    fill(
        page, pageHead({title: say("people.title"), actions}),
        entered &&
            alertBox(
                "success", element("strong", {}, say("staff.entered", entered)), " ", say("staff.sign-in", entered)),
        card(say("offices"), table({caption: say("offices"), columns, rows}).node),
        element("div", {class: "mt-3"}, card(say("staff"), staff)));
}

// who works in an office, by a list of the desk
async function staffCard(tree, office) {
    const choice = officeChoice({
        tree,
        value: office,
        label: say("office"),
        onchange: (other) => {
            location.hash = `#/people/${other}`;
        }
    });
    const rows = (await staffOf(office)).map(({staff, name, role}) => row([{head: name}, say(`role.${role}`), staff]));
    const columns = [{words: say("name")}, {words: say("role")}, {words: say("number")}];
    const list = rows.length === 0 ? emptyState(say("staff.none")) : table({caption: say("staff"), columns, rows}).node;
    return [element("div", {class: "filters"}, choice), list];
}

function officeChoices(tree) {
    return tree.map(
        ({number, name, depth}) => [String(number), `${"\u00a0\u00a0\u00a0".repeat(depth)}${number} ${name}`]);
}

function firstFree(tree) {
    const taken = new Set(tree.map(({number}) => number));
    return Array.from({length: 9999}, (_, i) => i + 1).find((number) => !taken.has(number)) ?? "";
}

async function newOffice(page, tree) {
    const fields = {
        name: nameField({label: say("name")}),
        number: numberField({label: say("office.number"), value: String(firstFree(tree)), range: () => [1, 9999]}),
        parent:
            choiceField({label: say("office.parent"), choices: officeChoices(tree), hint: say("office.parent.hint")}),
    };
    const send = keptWriting(({name, number, parent}) => officeWriting({name, number, parent: Number(parent)}));
    const done =
        await ask({title: say("office.new"), text: say("office.new.what"), fields, action: say("office.open"), send});
    if (done !== null) {
        note(say("office.opened"));
        await people(page);
    }
}

function officeWriting(members) {
    return new Writing({
        send: () => change("POST", "/offices", members),
        find: async () => {
            const same = (one) => ["name", "number", "parent"].every((name) => one[name] === members[name]);
            return (await offices(true)).find(same) ?? null;
        },
    });
}

// Without a list of staff it can't be looked, after a lost reply, whether they were entered: the dialog says so.
function staffWriting({name, office, role}, isListed) {
    return new Writing({
        before: async () => (isListed ? (await staffOf(office)).length : 0),
        send: async () => (await change("POST", "/staff", {name, office, role})).body,
        find: isListed ? async (count) => findStaff(await staffOf(office), name, count) : null
    });
}

function findStaff(list, name, count) {
    return list.slice(count).find((one) => one.name === name) ?? null;
}

async function newStaff(page, tree, own) {
    const isListed = await hasLists();
    const fields = {
        name: nameField({label: say("name")}),
        office: choiceField({label: say("office"), choices: officeChoices(tree), value: String(own)}),
        role: choiceField({label: say("role"), choices: ROLES.map((role) => [role, say(`role.${role}`)])}),
    };
    let entered = null;
    const attempt = keptWriting((values) => staffWriting({...values, office: Number(values.office)}, isListed));
    const send = async (values) => {
        const {staff} = await attempt(values);
        entered = {staff, name: values.name};
    };
    const done =
        await ask({title: say("staff.new"), text: say("staff.new.what"), fields, action: say("staff.enter"), send});
    if (done !== null) {
        await showPeople(page, Number(entered.staff.split("/")[0]), entered);
    }
}
