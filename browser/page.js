// Stands first in every page. `readers` (set by the page) reads the text in place number i; what it gives is reported as the numbers of its UTF-16
// units, four hex digits each, so that nothing is escaped on the way back; `-` where there is nothing to read.
const V = [];

// Some texts call `alert`. No text may be run; one that is does no harm, and is counted.
let run = 0;
window.alert = () => { run += 1; };

const at = (letter, i) => document.getElementById(letter + i);

// The text of an element that holds nothing but text.
const textAt = (letter, i) => at(letter, i).childElementCount ? null : at(letter, i).textContent;

// The attribute `title` of an empty element that has no others but its id.
const titleAt = (letter, i) => at(letter, i).attributes.length !== 2 || at(letter, i).firstChild ? null : at(letter, i).getAttribute('title');

// All attributes of an element, in their order.
const attributesOf = element => [...element.attributes].map(a => a.name + '=' + a.value).join(' ');

// What the handler of a button calls when it is clicked, and the text that it gives. The button has no attributes but its id and its handler.
let heard;
const landing = text => { heard = text; };
const clicked = (letter, i) => {
    const button = at(letter, i);
    heard = undefined;
    button.click();
    return button.attributes.length !== 2 || button.firstChild ? null : heard;
};

const hex = text => {
    let digits = '';
    for (let k = 0; k < text.length; k += 1) digits += text.charCodeAt(k).toString(16).padStart(4, '0');
    return digits;
};

const report = (reader, i) => {
    try {
        return hex(reader(i));
    } catch (missing) {
        return '-';
    }
};

// When the page is read to its end: reports the number of elements and of texts that were run, and every place, a line for each reader. Nothing else is
// left of the page.
const reportAll = (readers, count) => addEventListener('DOMContentLoaded', () => {
    const elements = document.getElementsByTagName('*').length;
    const lines = readers.map(reader => Array.from({length: count}, (_, i) => report(reader, i)).join(' '));
    document.documentElement.innerHTML = '<pre id="result"></pre>';
    document.getElementById('result').textContent = [elements + ' ' + run, ...lines].join('\n');
});
