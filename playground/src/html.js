// What stands on the page, put there only where it changed: to lay out the page anew takes longer than to compare.

export const escaped = (text) => text.replace(/[&<>"]/g, (sign) => `&#${sign.charCodeAt(0)};`);

const shown = new WeakMap();

export function putInto(element, html) {
  if (shown.get(element) === html) return;
  shown.set(element, html);
  element.innerHTML = html;
}
