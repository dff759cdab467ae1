// Dark or light.
const darkness = matchMedia("(prefers-color-scheme: dark)");
function setDark(dark, isChosen = true) {
  isDark = dark;
  if (isChosen) keepStored(ALL, "dark", dark);
  document.documentElement.classList.toggle("dark", dark);
  $("dark").textContent = dark ? "Light colours" : "Dark colours";
  showTools(); showPeople(); placeWords();
}
darkness.addEventListener("change", () => { if (stored(ALL, "dark", null) === null) setDark(darkness.matches, false); });

