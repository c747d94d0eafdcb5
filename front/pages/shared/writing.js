// A request that changes something, and whose reply may be lost. Before it is sent again, it is looked whether it was
// carried out.
import {Problem} from "./api.js";

// The request was lost, and what the desk shows since says that it was not carried out.
export class NotDone extends Error {
    constructor(problem) {
        super("not done");
        this.problem = problem;
    }
}

// The request was lost, and it could not be looked whether it was carried out.
export class NotKnown extends Error {
    constructor(problem, isBlind) {
        super("not known");
        this.problem = problem;
        this.isBlind = isBlind;
    }
}

// before: what is read before the first sending, to tell later what is new. send: sends, and answers the reply's body.
// find: looks for what was sent, given what `before` read, and answers what `send` would have, or null where it is not
// there. Without `find` there is no route that tells whether it was carried out.
export class Writing {
    constructor({before = async () => null, send, find = null}) {
        this.before = before;
        this.send = send;
        this.find = find;
        this.seen = undefined;
        this.lost = null;
    }

    async attempt() {
        if (this.lost !== null && this.find !== null) {
            const found = await this.look();
            if (found !== null) {
                return found;
            }
        }
        if (this.seen === undefined) {
            this.seen = await this.before();
        }
        this.lost = null;
        try {
            return await this.send();
        } catch (problem) {
            return this.afterLoss(problem);
        }
    }

    async afterLoss(problem) {
        if (!(problem instanceof Problem) || !problem.isLost) {
            throw problem;
        }
        this.lost = problem;
        if (this.find === null) {
            throw new NotKnown(problem, true);
        }
        const found = await this.look();
        if (found !== null) {
            return found;
        }
        throw new NotDone(problem);
    }

    async look() {
        try {
            return await this.find(this.seen);
        } catch (problem) {
            throw problem instanceof Problem ? new NotKnown(this.lost, false) : problem;
        }
    }
}

// Answers a function that carries out the writing of the values it is handed. Handed the same values again, after a
// lost reply, it goes on with the same writing, which looks first.
export function keptWriting(make) {
    let kept = null;
    return (values) => {
        const text = JSON.stringify(values);
        kept = kept?.text === text ? kept : {text, one: make(values)};
        return kept.one.attempt();
    };
}
