// Days are texts, YYYY-MM-DD. Differences are counted in UTC, where each day has 24 hours.

const HOURS_24 = 86_400_000;

export const FIRST_DAY = "2000-01-01";
export const LAST_DAY = "2099-12-31";

export function numberOfDay(day) {
    const [year, month, date] = day.split("-").map(Number);
    return Date.UTC(year, month - 1, date) / HOURS_24;
}

export function dayOfNumber(number) {
    return new Date(number * HOURS_24).toISOString().slice(0, 10);
}

// how many days the second is after the first
export function daysBetween(first, second) {
    return numberOfDay(second) - numberOfDay(first);
}

export function isDay(text) {
    const isWritten = /^\d{4}-\d{2}-\d{2}$/.test(text) && text >= FIRST_DAY && text <= LAST_DAY;
    return isWritten && !Number.isNaN(numberOfDay(text)) && dayOfNumber(numberOfDay(text)) === text;
}

export function daysFor(locale) {
    const shown = new Intl.DateTimeFormat(locale, {
        year: "numeric",
        month: "short",
        day: "numeric",
        timeZone: "UTC",
        calendar: "gregory",
        numberingSystem: "latn",
    });
    return (day) => shown.format(new Date(numberOfDay(day) * HOURS_24));
}
