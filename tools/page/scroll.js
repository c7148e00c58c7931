// ---- scrolling

// Scrolls a box, and not the page around it, so that a part of it can be seen.
function bringIntoView(box, part) {
  if (!part) return;
  const room = box.getBoundingClientRect(), at = part.getBoundingClientRect();
  box.scrollTop += Math.min(at.top - room.top, 0) + Math.max(at.bottom - room.bottom, 0);
  box.scrollLeft += Math.min(at.left - room.left, 0) + Math.max(at.right - room.right, 0);
}
