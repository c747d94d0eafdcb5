// The receipts of a round. A round belongs to an office and a day, and a line's receipt is made of these, of the loan,
// and of how many payments the round has of it already: it is the same whoever sends it, from whatever browser. So two
// people who enter one round enter it once.

function startOf({office, day, loan}) {
    return `${office}-${day.replaceAll("-", "")}-${loan.slice(5)}`;
}

function receiptOf(place, number) {
    return number === 1 ? startOf(place) : `${startOf(place)}-${number}`;
}

// Of a loan's entries those that this round has made, each with its number in the round.
export function paymentsOf(place, entries) {
    const start = startOf(place);
    const numberOf = (receipt) => {
        const end = receipt?.startsWith(start) ? receipt.slice(start.length) : "none";
        return end === "" ? 1 : /^-\d{1,4}$/.test(end) ? Number(end.slice(1)) : 0;
    };
    return entries.map((entry) => ({...entry, number: numberOf(entry.receipt)})).filter(({number}) => number > 0);
}

// A receipt that was used stays known, also where its entry is reversed.
export function nextReceipt(place, payments) {
    return receiptOf(place, 1 + Math.max(0, ...payments.map(({number}) => number)));
}
