// Graphs by Chart.js. The same figures always stand in a table too.
import {loadLibrary} from "./api.js";
import {element} from "./elements.js";
import {dayOfNumber, numberOfDay} from "./days.js";
import {centsOfText} from "./money.js";
import {locale, say, showDay, showMoney} from "./words.js";

const IS_DARK = matchMedia("screen and (prefers-color-scheme: dark)").matches;

export const CLASS_COLOURS = {
    none: "#3d8f8a",
    c1_30: "#e3b23c",
    c31_60: "#e07a3f",
    c61_90: IS_DARK ? "#dc5a67" : "#c4424f",
    over_90: IS_DARK ? "#b9609b" : "#7a1f3d"
};
export const CLASSES = ["c1_30", "c31_60", "c61_90", "over_90"];
const LINE_COLOURS = IS_DARK ? {planned: "#9aa7b3", real: "#6fd0c8"} : {planned: "#6b7785", real: "#0b6e69"};

const DARK = {
    color: "#c3cdd4",
    borderColor: "#3a464e"
};

// Chart.js takes floating-point numbers: they draw a bar or a line, and every figure in words comes from the cents
// themselves.
function height(cents) {
    return Number(BigInt(cents)) / 100;
}

function canvasFor(words) {
    const canvas = element("canvas", {role: "img", "aria-label": words});
    return {canvas, node: element("div", {class: "graph"}, canvas)};
}

// Chart.js is larger than all pages: it is loaded once a graph is to be drawn. It measures the place where it draws, so
// a graph is drawn once it stands in the page. Where it can't be loaded the table beside it has the same figures.
async function drawn(canvas, settings) {
    await loadLibrary("/lib/chart/chart.min.js");
    requestAnimationFrame(() => {
        if (canvas.isConnected) {
            Object.assign(Chart.defaults, IS_DARK ? DARK : {});
            new Chart(
                canvas,
                {...settings, options: {locale, maintainAspectRatio: false, animation: false, ...settings.options}});
        }
    });
}

const compact = new Intl.NumberFormat(locale, {notation: "compact", maximumFractionDigits: 1, numberingSystem: "latn"});

const MOST_BARS = 30;

// The bars of those offices that have active loans: what is outstanding of their principal, by class. What no class
// holds is not overdue. Where there are more than can be read, those with the most outstanding.
export function barsOf(tree, report) {
    const names = new Map(tree.map(({number, name}) => [number, name]));
    const outstanding = (line) => centsOfText(line.outstanding);
    const most = report.offices.filter((line) => line.loans > 0)
                     .sort((one, other) => (outstanding(one) > outstanding(other) ? -1 : 1))
                     .slice(0, MOST_BARS);
    return most.sort((one, other) => one.office - other.office).map((line) => {
        const cents = Object.fromEntries(CLASSES.map((name) => [name, centsOfText(line[name])]));
        const overdue = CLASSES.reduce((all, name) => all + cents[name], 0n);
        return {
            name: `${line.office} ${names.get(line.office) ?? ""}`,
            cents: {none: outstanding(line) - overdue, ...cents},
        };
    });
}

// bars of offices, each of its classes: bars is [{ name, cents: { none, c1_30, .. } }]
export function classBars(bars, words) {
    const {canvas, node} = canvasFor(words);
    node.style.height = `${Math.max(160, 70 + bars.length * 30)}px`;
    const names = Object.keys(CLASS_COLOURS);
    const datasets = names.map((name) => ({
                                   label: say(`class.${name}`),
                                   backgroundColor: CLASS_COLOURS[name],
                                   maxBarThickness: 22,
                                   data: bars.map((bar) => height(bar.cents[name])),
                                   cents: bars.map((bar) => bar.cents[name]),
                               }));
    drawn(canvas, {
        type: "bar",
        data: {labels: bars.map(({name}) => name), datasets},
        options: {
            indexAxis: "y",
            scales: {
                x: {stacked: true, ticks: {callback: (value) => compact.format(value)}},
                y: {stacked: true, grid: {display: false}}
            },
            plugins: {legend: {position: "bottom", labels: {boxWidth: 14}}, tooltip: {callbacks: {label: centsLabel}}},
        },
    });
    return node;
}

function centsLabel(item) {
    return `${item.dataset.label}: ${showMoney(item.dataset.cents[item.dataIndex])}`;
}

// steps of a balance over days: planned and real are [{ day, cents }]
export function balanceSteps({planned, real, words}) {
    const {canvas, node} = canvasFor(words);
    node.style.height = "260px";
    const line = (label, points, colour, dash) => ({
        label,
        borderColor: colour,
        backgroundColor: colour,
        borderDash: dash,
        borderWidth: 2,
        stepped: "before",
        pointRadius: 2,
        pointStyle: "circle",
        data: points.map(({day, cents}) => ({x: numberOfDay(day), y: height(cents)})),
        cents: points.map(({cents}) => cents),
    });
    const ends = [...planned, ...real].map(({day}) => numberOfDay(day));
    drawn(canvas, {
        type: "line",
        data: {
            datasets: [
                line(say("graph.planned"), planned, LINE_COLOURS.planned, [5, 4]),
                line(say("graph.real"), real, LINE_COLOURS.real, [])
            ]
        },
        options: {
            scales: {
                x: dayAxis(Math.min(...ends), Math.max(...ends)),
                y: {beginAtZero: true, ticks: {maxTicksLimit: 6, callback: (value) => compact.format(value)}}
            },
            plugins: {
                legend: {position: "bottom", labels: {usePointStyle: true, pointStyle: "line"}},
                tooltip: {callbacks: {title: (items) => showDay(dayOfNumber(items[0].parsed.x)), label: centsLabel}},
            },
        },
    });
    return node;
}

// an axis of days from the first to the last, with as many of them named as there is room for
function dayAxis(first, last) {
    const steps = Math.min(window.innerWidth < 640 ? 2 : 4, Math.max(1, last - first));
    const days = Array.from({length: steps + 1}, (_, i) => first + Math.round(((last - first) * i) / steps));
    return {
        type: "linear",
        min: first,
        max: last,
        afterBuildTicks: (axis) => {
            axis.ticks = days.map((value) => ({value}));
        },
        ticks: {maxRotation: 0, autoSkip: false, align: "inner", callback: (value) => showDay(dayOfNumber(value))},
    };
}
