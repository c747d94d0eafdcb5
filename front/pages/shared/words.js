// The reader's language and locale. All words of a language stand in one file of words/, each under the same keys; the
// reader's alone is loaded.
import {moneyFor} from "./money.js";
import {daysFor} from "./days.js";

const KEPT_AS = "language";

export const LANGUAGES = [["en", "English"], ["fr", "Français"], ["es", "Español"], ["sw", "Kiswahili"]];

function isKnown(name) {
    return LANGUAGES.some(([one]) => one === name);
}

function browserLanguages() {
    return navigator.languages?.length ? navigator.languages : [navigator.language || "en"];
}

function mainPart(locale) {
    return locale.toLowerCase().split("-")[0];
}

function chosen() {
    const kept = localStorage.getItem(KEPT_AS);
    if (isKnown(kept)) {
        return {language: kept, locale: browserLanguages().find((locale) => mainPart(locale) === kept) ?? kept};
    }
    const known = browserLanguages().find((locale) => isKnown(mainPart(locale)));
    return {language: known ? mainPart(known) : "en", locale: browserLanguages()[0]};
}

export const {language, locale} = chosen();

export function chooseLanguage(name) {
    localStorage.setItem(KEPT_AS, name);
    location.reload();
}

const {default: words} = await import(`../words/${language}.js`);
const money = moneyFor(locale);
const plural = new Intl.PluralRules(language);
const counted = new Intl.NumberFormat(locale, {numberingSystem: "latn"});

// the words of a key, each {name} in them replaced by that value
export function say(key, values = {}) {
    const text = words[key];
    if (text === undefined) {
        throw new Error(`no words for ${key}`);
    }
    return text.replace(/\{(\w+)\}/g, (_, name) => String(values[name]));
}

export function hasWords(key) {
    return key in words;
}

// the words for so many: those of the key that ends in .one or in .other, as the language counts
export function sayCount(key, count, values = {}) {
    const form = plural.select(count) === "one" ? "one" : "other";
    return say(`${key}.${form}`, {count: showCount(count), ...values});
}

// without accents and in small letters, so that "jose" finds "José"
export function plain(text) {
    return text.normalize("NFD").replace(/\p{Mn}/gu, "").toLowerCase();
}

export const showMoney = money.format;
export const readMoney = money.parse;
export const showDay = daysFor(locale);

const clock = new Intl.DateTimeFormat(locale, {
    hour: "2-digit",
    minute: "2-digit",
    hourCycle: "h23",
    numberingSystem: "latn"
});

// a moment by this machine's clock: its time, and its day where that isn't today's
export function showMoment(milliseconds) {
    const moment = new Date(milliseconds);
    const isToday = moment.toDateString() === new Date().toDateString();
    return isToday ? clock.format(moment) : showDated(milliseconds);
}

// the same with its day always, as for paper
export function showDated(milliseconds) {
    const moment = new Date(milliseconds);
    const date = [moment.getFullYear(), moment.getMonth() + 1, moment.getDate()];
    const day = date.map((part) => String(part).padStart(2, "0")).join("-");
    return `${showDay(day)} ${clock.format(moment)}`;
}

const ago = new Intl.RelativeTimeFormat(locale, {numberingSystem: "latn"});

// how long ago a moment was: in minutes, from an hour on in hours, from two days on in days
export function showAge(milliseconds) {
    const minutes = Math.floor((Date.now() - milliseconds) / 60_000);
    const units = [[2880, 1440, "day"], [60, 60, "hour"], [-Infinity, 1, "minute"]];
    const [, size, unit] = units.find(([least]) => minutes >= least);
    return ago.format(-Math.floor(minutes / size), unit);
}

export function showCount(count) {
    return counted.format(count);
}

const percent = new Intl.NumberFormat(locale, {style: "percent", numberingSystem: "latn"}).format(0);

// hundredths of a percent, with the sign where the locale has it
export function showPercent(hundredths) {
    return percent.replace("0", money.format(hundredths));
}

// how often an instalment is due
export function showStep({frequency, every}) {
    return sayCount(`frequency.${frequency}`, every);
}
