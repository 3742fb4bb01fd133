// The rows of a table of choices, in their order or those of the least traffic first.
const least = JSON.parse(document.getElementById("data").textContent);
const body = document.querySelector(".choices tbody");
const rows = [...body.rows];
const turn = document.getElementById("turn");
let sorted = false;
turn.addEventListener("click", () => {
  sorted = !sorted;
  body.replaceChildren(...(sorted ? least.map((number) => rows[number]) : rows));
  turn.textContent = sorted ? "in order" : "least first";
});
turn.hidden = false;
document.documentElement.dataset.ready = "yes";
