// The day pack that is kept on this phone: one record, in a database of its own, so that pages of the version before,
// which know none, go on beside it. It is a copy of what the desk told, and nothing that was typed lies in it: where it
// can't be read, it is taken along anew. It is sealed by the phone's PIN (views/kept-pin.js) under a name of its own.
import {KeptDatabase} from "../shared/kept-database.js";

export const PACK = "pack";

const STORE = "pack";
const ONLY = "only";
const PLACES = [[STORE, ONLY]];
const database = new KeptDatabase("microloan-pack", [STORE]);

// the pack as it is sealed, with when it was taken along in clear; undefined where there is none
export function sealedPack() {
    return database.within("readonly", ({pack}) => pack.get(ONLY));
}

export function keepSealedPack(record) {
    return database.change(PLACES, ({pack}) => pack.put(record, ONLY));
}

export function dropPack() {
    return database.change(PLACES, ({pack}) => pack.delete(ONLY));
}
