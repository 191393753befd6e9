// What pointers do on the picture: the wheel and two fingers zoom, dragging moves the window, a click chooses or sets a cursor. A finger,
// which has no Shift, sets the two cursors in turn.

const FAR = 4, WHEEL = 1.0018;

export function pointing(picture, { stage, tip, words, chosen, lit, moved }) {
  const { canvas } = picture;
  const fingers = new Map();
  let drag = null;
  const place = (event) => {
    const box = canvas.getBoundingClientRect();
    return [event.clientX - box.left, event.clientY - box.top];
  };

  canvas.addEventListener("wheel", (event) => {
    if (!picture.run || event.ctrlKey) return;
    event.preventDefault();
    const [x] = place(event);
    if (event.shiftKey || Math.abs(event.deltaX) > Math.abs(event.deltaY)) picture.pan((event.deltaX || event.deltaY) / 1000);
    else picture.zoom(WHEEL ** event.deltaY, picture.time(x));
    moved(true);
  }, { passive: false });

  canvas.addEventListener("pointerdown", (event) => {
    if (event.button !== 0 || !picture.run) return;
    const [x, y] = place(event);
    fingers.set(event.pointerId, x);
    if (fingers.size > 1) return (drag = null);
    drag = { x, y, from: picture.view.from, to: picture.view.to, far: false };
    canvas.setPointerCapture(event.pointerId);
    canvas.focus({ preventScroll: true });
  });

  canvas.addEventListener("pointermove", (event) => {
    if (!picture.run) return;
    const [x, y] = place(event);
    if (fingers.size === 2 && fingers.has(event.pointerId)) return pinch(event.pointerId, x);
    if (!drag) return point(x, y);
    if (!drag.far && Math.abs(x - drag.x) < FAR) return;
    drag.far = true;
    tip.hidden = true;
    canvas.style.cursor = "grabbing";
    const wide = ((drag.x - x) * (drag.to - drag.from)) / (picture.x(drag.to) - picture.x(drag.from) || 1);
    const scale = picture.view.to - picture.view.from;
    picture.look(drag.from + wide, drag.from + wide + scale);
    picture.paintMoving();
    moved(true);
  });

  canvas.addEventListener("pointerup", (event) => {
    canvas.style.cursor = "";
    fingers.delete(event.pointerId);
    if (!drag) return;
    const { far } = drag, [x, y] = place(event);
    drag = null;
    if (far || !picture.run) return;
    const found = picture.at(x, y), isTouch = event.pointerType === "touch";
    if (found && !found.isGone && !event.shiftKey && !event.altKey) return chosen(found);
    const isSecond = event.shiftKey || (isTouch && picture.cursors[0] !== null && picture.cursors[1] === null);
    if (isTouch && !isSecond) picture.cursors[1] = null;
    picture.cursors[isSecond ? 1 : 0] = picture.snapped(x);
    picture.paint();
    moved(false);
  });

  canvas.addEventListener("pointercancel", (event) => {
    fingers.delete(event.pointerId);
    drag = null;
  });
  canvas.addEventListener("pointerleave", () => {
    tip.hidden = true;
    lit(-1);
  });
  canvas.addEventListener("dblclick", (event) => {
    picture.zoom(0.25, picture.time(place(event)[0]));
    moved(true);
  });

  /** Two fingers zoom, about the middle between them. */
  function pinch(finger, x) {
    const wide = () => {
      const [one, other] = [...fingers.values()];
      return Math.max(Math.abs(one - other), 10);
    };
    const before = wide();
    fingers.set(finger, x);
    const [one, other] = [...fingers.values()];
    picture.zoom(before / wide(), picture.time((one + other) / 2));
    moved(true);
  }

  function point(x, y) {
    const found = picture.at(x, y);
    canvas.style.cursor = found && !found.isGone ? "pointer" : "";
    lit(found?.isGone ? -1 : found?.line ?? -1);
    tip.hidden = !found;
    if (!found) return;
    tip.textContent = words(found);
    const left = Math.min(x + 14, stage.clientWidth - tip.offsetWidth - 6);
    tip.style.left = `${Math.max(left, 2)}px`;
    tip.style.top = `${y + 18}px`;
  }
}
