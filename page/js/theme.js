// Light and dark, and the colours that the picture is painted in.

const THEMES = ["", "light", "dark"];

/** As the system has it, light, dark, in turn. */
export function nextTheme() {
  const { dataset } = document.documentElement, next = THEMES[(THEMES.indexOf(dataset.theme ?? "") + 1) % THEMES.length];
  if (next) dataset.theme = next;
  else delete dataset.theme;
}

export function isDark() {
  const { theme } = document.documentElement.dataset;
  return theme ? theme === "dark" : matchMedia("(prefers-color-scheme: dark)").matches;
}

export function coloursOf() {
  const dark = isDark();
  return {
    paper: dark ? "#14171b" : "#ffffff", ink: dark ? "#e6e9ee" : "#1b1f24",
    faint: dark ? "#98a2b0" : "#5d6672", grid: dark ? "#2a2f36" : "#e6e9ee",
    edge: dark ? "#0c0e11" : "#3a3f46", area: dark ? 0.75 : 0.85, ghost: dark ? "#a9b2bf" : "#6b7280",
    fault: dark ? "#ff5d6c" : "#c00020", event: dark ? "#6cb2f7" : "#0b5cad", select: dark ? "#ffd54a" : "#b000b8",
    cursors: dark ? ["#6fd39b", "#6cb2f7"] : ["#14703f", "#0b5cad"], onPhase: "#12161b", onSide: "#ffffff",
    sides: ["#3f6fa8", "#b5561f", "#2f7d5b"],
    phases: dark ? ["#5a626d", "#6f9fc0", "#6db8a0", "#d98a52", "#000000"] : ["#cccccc", "#b3dcf5", "#99d8c7", "#ee9e66", "#000000"],
    ports: dark ? ["#ffc14d", "#8fd0f7", "#3fcf9f", "#fff27a", "#4da6e0", "#ff9340", "#eaa6cb", "#c8c8c8"]
      : ["#7a5400", "#1c5f8a", "#00402f", "#7d7500", "#00304d", "#6e3000", "#7a2f58", "#444444"],
    heat: dark ? ["#3a414b", "#2f7d5b", "#4da6e0", "#f0c060", "#ff9340", "#ff5d6c"]
      : ["#d5d9e0", "#8fd3b6", "#56b4e9", "#e0b000", "#e06a00", "#c00020"],
  };
}
