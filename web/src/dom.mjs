// What both views do with a page. Nothing is ever put in as HTML: texts are texts.

export const byId = id => document.getElementById(id);

// element('p', { class: 'note' }, 'text', another)
export function element(name, attributes, ...children) {
    const made = document.createElement(name);
    for (const [key, value] of Object.entries(attributes)) made.setAttribute(key, value);
    made.append(...children);
    return made;
}

// a tree of picture.mjs
export function grow([name, attributes, ...children]) {
    const made = document.createElementNS('http://www.w3.org/2000/svg', name);
    for (const [key, value] of Object.entries(attributes)) made.setAttribute(key, value);
    made.append(...children.map(child => Array.isArray(child) ? grow(child) : child));
    return made;
}

// Marks a field for what is said of it, in the elements with these ids: why is 'slip', 'refused' or 'blank'; null takes a mark away
export function mark(field, why, ids) {
    if (why) {
        field.setAttribute('aria-invalid', 'true');
        field.dataset.why = why;
    } else {
        field.removeAttribute('aria-invalid');
        delete field.dataset.why;
    }
    if (ids.length) field.setAttribute('aria-describedby', ids.join(' '));
    else field.removeAttribute('aria-describedby');
}

// ±, since a telephone's keys for decimals may have no minus: puts one in front, or takes it away
export function turnSign(field) {
    const typed = field.value.trim();
    field.value = /^[-\u2212\u2013]/.test(typed) ? typed.slice(1) : `-${typed}`;
    field.focus();
    field.dispatchEvent(new Event('input', { bubbles: true }));
}

export function options(select, choices) {
    select.append(...Object.entries({ '': 'choose…', ...choices }).map(([value, words]) => element('option', { value }, words)));
}

export const sentence = words => words.charAt(0).toUpperCase() + words.slice(1);

let speaking = 0;
// for a screen reader, when the typing has come to rest
export function speak(words) {
    clearTimeout(speaking);
    speaking = setTimeout(() => {
        if (byId('spoken').textContent !== words) byId('spoken').textContent = words;
    }, 900);
}
export function hush() {
    clearTimeout(speaking);
    byId('spoken').textContent = '';
}
