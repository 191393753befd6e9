// A bar between two parts of the page, moved by pointer or arrow keys.

const LEAST = 120, STEP = 20;

/** `size()`: how large the part is now; `place(event)`: how large it is to be, where a pointer is. */
export function splitter(bar, name, size, place) {
  const tell = () => {
    const most = Math.max(window.innerWidth, window.innerHeight);
    for (const [key, value] of [["min", LEAST], ["max", most], ["now", size()]]) bar.setAttribute(`aria-value${key}`, Math.round(value));
  };
  const set = (wanted) => {
    document.documentElement.style.setProperty(name, `${Math.max(wanted, LEAST)}px`);
    tell();
  };
  bar.addEventListener("pointerdown", (event) => {
    bar.setPointerCapture(event.pointerId);
    bar.onpointermove = (moved) => set(place(moved));
    bar.onpointerup = () => (bar.onpointermove = null);
  });
  bar.addEventListener("focus", tell);
  bar.addEventListener("keydown", (event) => {
    const step = { ArrowLeft: -STEP, ArrowUp: -STEP, ArrowRight: STEP, ArrowDown: STEP }[event.key];
    if (!step) return;
    event.preventDefault();
    event.stopPropagation();
    set(size() + step);
  });
  tell();
}
