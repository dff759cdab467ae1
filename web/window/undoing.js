// Taking back and doing again: this tab's last step on this page, and on each other page where it is the same step.
function turnStep(kind, id) {
  const names = [...pages.keys()].filter(name => name === here || pastOf(name, tab)[kind === "back" ? "done" : "undone"].includes(id));
  for (const name of names) {
    for (const one of pending) if (one.id === id && one.page === name) one.isBack = kind === "back";
    give({ kind, id }, name);
  }
}
function undo() {
  if (isOver || !last) return;
  if (shaping || wiping.size || dragging || lasso) { giveUp(); return; }
  if (writing) endWords();
  const id = pastOf(here, tab).done.at(-1);
  if (id) { turnStep("back", id); say("taken back"); } else toast("Nothing that this tab did is left to take back on this page");
}
function redo() {
  if (isOver || !last || shaping) return;
  const id = pastOf(here, tab).undone.at(-1);
  if (id) { turnStep("again", id); say("done again"); } else toast("Nothing is left to do again on this page");
}
function showPast() {
  const { done, undone } = pastOf(here, tab);
  $("undo").disabled = isOver || !(done.length || shaping);
  $("redo").disabled = isOver || !undone.length;
}
