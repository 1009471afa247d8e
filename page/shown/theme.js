// Dark or light: as the system has it, until the reader chooses. A choice is kept for all pages of this place, where
// the browser lets a page keep something.

const THEME_KEY = "listset theme", wantsDark = window.matchMedia("(prefers-color-scheme: dark)");

function keptTheme() {
  try { return localStorage.getItem(THEME_KEY); } catch { return null; /* a page in a frame may keep nothing */ }
}
function keepTheme(theme) {
  try { localStorage.setItem(THEME_KEY, theme); } catch { /* it holds for this page alone */ }
}
const isDark = () => (document.documentElement.dataset.theme || (wantsDark.matches ? "dark" : "light")) === "dark";
// The button says what it leads to.
function nameTheme() { byId("light").textContent = isDark() ? "light" : "dark"; }
function toggleTheme() {
  const theme = isDark() ? "light" : "dark";
  document.documentElement.dataset.theme = theme;
  keepTheme(theme);
  nameTheme();
}
function beginTheme() {
  const theme = keptTheme();
  if (theme === "dark" || theme === "light") document.documentElement.dataset.theme = theme;
  wantsDark.addEventListener("change", nameTheme);
  nameTheme();
}
