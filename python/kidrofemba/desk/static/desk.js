"use strict";
// Everything works without this script; it completes points, prints, keeps a form from being sent
// twice, and draws the live graph anew as sales come.

const csrf = document.body.dataset.csrf;

for (const button of document.querySelectorAll("[data-print]")) {
  button.hidden = false;
  button.addEventListener("click", () => window.print());
}

// A form that was sent waits for its answer; a second press does nothing.
for (const form of document.querySelectorAll('form[method="post"]')) {
  form.addEventListener("submit", event => {
    if (form.dataset.sent) event.preventDefault();
    form.dataset.sent = "yes";
  });
}
window.addEventListener("pageshow", () => {
  for (const form of document.forms) delete form.dataset.sent;
});

// Points are completed by the server, which knows parts of names and codes.
const points = document.getElementById("points");
let asked = 0;
async function complete(text) {
  const turn = ++asked;
  const answer = await fetch("/v1/points?q=" + encodeURIComponent(text));
  if (!answer.ok || turn !== asked) return;
  const told = await answer.json();
  points.replaceChildren(...told.points.map(one => {
    const option = document.createElement("option");
    option.value = one.id;
    return option;
  }));
}
let waiting = 0;
for (const input of document.querySelectorAll("input[list=points]")) {
  input.addEventListener("input", () => {
    clearTimeout(waiting);
    if (input.value.trim()) waiting = setTimeout(() => complete(input.value), 150);
  });
}

// Graphs are drawn for the width at hand.
for (const graph of document.querySelectorAll("img.graph")) {
  const width = Math.round(graph.clientWidth);
  if (width > 1100 || width < 800) graph.src += "&width=".replace("&",
    graph.src.includes("?") ? "&" : "?") + width;
}

const live = document.getElementById("live"), events = document.getElementById("events");
if (live && events) {
  let due = 0;
  const redraw = () => {
    due = 0;
    live.src = live.dataset.src + "&width=" + Math.round(live.clientWidth) + "&at=" + Date.now();
  };
  const source = new EventSource("/v1/events");
  for (const what of ["sold", "freed", "closed"]) {
    source.addEventListener(what, message => {
      const told = JSON.parse(message.data), row = document.createElement("li");
      const times = told.departs
        ? ` ${told.train} ${told.departs.slice(11, 16)}–${told.arrives.slice(11, 16)}` : "";
      row.textContent = `${events.dataset[what]}: ${told.tenant} ${told.id}${times}`;
      events.prepend(row);
      while (events.children.length > 100) events.lastChild.remove();
      if (!due) due = setTimeout(redraw, 700);
    });
  }
}
