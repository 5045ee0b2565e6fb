// Stands behind page.js in the pages of the matrix. FORMS (set by the page) has what was written for each text; each reader puts one of them into a place of a
// small document of its own, and gives what the browser holds there: null where the place was left, or is not what it was to be.
const parsed = source => new DOMParser().parseFromString(source, 'text/html');

// The text of an element, which the element `u` follows; `first` and `last` stand around it.
const elementText = (name, text, first, last) => {
    const page = parsed('<html><head></head><body><' + name + '>' + first + text + last + '</' + name + '><u></u></body></html>');
    const element = page.querySelector(name);
    const kept = element && page.getElementsByTagName('*').length === 5 && [...element.childNodes].every(node => node.nodeType === 3);
    return kept && element.nextSibling && element.nextSibling.nodeName === 'U' && page.body.lastChild === element.nextSibling ? element.textContent : null;
};

// The same with U+2063 behind the text must have it too: the place was not left before the end tag.
const inElement = (name, i, first = '') => {
    const marked = elementText(name, FORMS[i], first, '\u2063');
    return marked !== null && marked.endsWith('\u2063') ? elementText(name, FORMS[i], first, '') : null;
};

// The attribute `title`, between two marks, of an element that has one other attribute, or none.
const inValue = (before, behind, i) => {
    const element = parsed('<html><head></head><body><i title=' + before + FORMS[i] + behind + '></i></body></html>').querySelector('i');
    const wanted = behind.endsWith(' lang=x') ? 2 : 1;
    const kept = element && element.ownerDocument.getElementsByTagName('*').length === 4 && element.attributes.length === wanted && !element.firstChild;
    return kept && (wanted === 1 || element.getAttribute('lang') === 'x') ? element.getAttribute('title') : null;
};

// Without quotes the value ends at `>` or at white space; the two must agree.
const inBareValue = i => {
    const value = inValue('', '', i);
    return value === inValue('', ' lang=x', i) ? value : null;
};

// A string literal: as the name of the one property of an object, where no other expression can stand.
const inString = (quote, i) => {
    const names = Object.getOwnPropertyNames((0, eval)('({' + quote + FORMS[i] + quote + ': 1})'));
    return names.length === 1 ? names[0] : null;
};

// Before ECMAScript 2019, which no browser of today has: a U+2028 or U+2029 that no backslash stands before ends the string.
const inOldString = (quote, i) => /[\u2028\u2029]/.test(FORMS[i].replace(/\\[^]/g, '')) ? null : inString(quote, i);

// A template without a substitution.
const inTemplate = i => {
    const tag = (strings, ...values) => values.length || strings[0] === undefined ? null : strings[0];
    return new Function('tag', 'return tag`' + FORMS[i] + '`;')(tag);
};

// A CSS string: the one property of the first of two rules. It is read back as the browser writes it, in double quotes.
const inStyle = (quote, i) => {
    const sheet = new CSSStyleSheet();
    sheet.replaceSync('a{content:' + quote + FORMS[i] + quote + '} b{color:red}');
    const value = sheet.cssRules.length === 2 && sheet.cssRules[0].style.length === 1 ? sheet.cssRules[0].style.content : '';
    if (!/^"(?:[^"\\]|\\[^])*"$/.test(value)) return null;
    return value.slice(1, -1).replace(/\\(?:([0-9a-f]{1,6}) ?|([^]))/g, (_, digits, other) => digits ? String.fromCodePoint(parseInt(digits, 16)) : other);
};

const inJson = i => JSON.parse('"' + FORMS[i] + '"');
