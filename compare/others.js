// Times functions of the package entities (Debian's node-entities), in a process of its own. Started by compare/run benchmark --others; compare/others.go
// says what it reads and prints. The texts are JavaScript strings before the time is taken; a result can still be a chain of pieces, which V8 joins later.
'use strict';
const fs = require('fs');
const entities = require('/usr/share/nodejs/entities');
const [folder, rounds, micros] = [process.argv[2], Number(process.argv[3]), Number(process.argv[4])];

// Returns the processor time of the process so far, in microseconds.
function spent() {
    const { user, system } = process.cpuUsage();
    return user + system;
}

// Returns the texts of a file.
function texts(path) {
    const bytes = fs.readFileSync(path);
    const all = [];
    for (let at = 0; at < bytes.length;) {
        const end = bytes.indexOf(10, at);
        const length = Number(bytes.toString('latin1', at, end));
        all.push(bytes.toString('utf8', end + 1, end + 1 + length));
        at = end + 1 + length;
    }
    return all;
}

// Returns the median time of one pass over the texts, after two tenths of a second in which V8 compiles what it runs often.
function median(call, given) {
    let [length, repeats] = [0, 1];
    const pass = () => {
        const began = spent();
        for (let i = 0; i < repeats; i += 1) {
            for (const text of given) length += call(text).length;
        }
        return spent() - began;
    };
    for (const began = spent(); spent() - began < 200000;) pass();
    while (pass() < micros) repeats *= 2;
    const times = Array.from({ length: rounds }, () => pass() / repeats).sort((one, other) => one - other);
    return 1000 * times[rounds >> 1];
}

for (const job of fs.readFileSync(folder + '/jobs', 'utf8').trim().split('\n')) {
    const [number, name] = job.split(' ');
    const given = texts(folder + '/' + number);
    const results = given.map(text => Buffer.from(entities[name](text)));
    fs.writeFileSync(folder + '/' + number + '.out', Buffer.concat(results.flatMap(result => [Buffer.from(result.length + '\n'), result])));
    console.log(number, median(entities[name], given));
}
