// A memory's picture as elements of the page, and what has changed since the last one.

const at = (id) => document.getElementById(id);

function cell(classes, text, title) {
  const found = document.createElement("span");
  found.className = `cell ${classes}`;
  found.textContent = text;
  found.title = title;
  return found;
}

function rowCell(row, number, before) {
  const named = row.kind === "kept" || row.kind === "shadow";
  const title = `row ${number}: ${row.kind}${named ? `, page ${row.page}` : ""}${row.kind === "shadow" ? `, slot ${row.slot}` : ""}`;
  const changed = before && (before.kind !== row.kind || before.page !== row.page);
  return cell(`${row.kind}${changed ? " changed" : ""}`, named ? row.page : "", title);
}

function whereOf(segment) {
  return segment.position === null ? "the spare" : `position ${segment.position}`;
}

function segmentBox(shown, number, before) {
  const segment = shown.segments[number], box = document.createElement("div"), head = document.createElement("header");
  const cells = document.createElement("div");
  const working = shown.job.kind === "erase" ? segment.position === null : shown.job.kind !== "none" && shown.job.segment === number;
  box.className = `segment${segment.position === null ? " spare" : ""}${working ? " working" : ""}`;
  head.textContent = `segment ${number}, ${whereOf(segment)}, wear ${segment.wear}`;
  cells.className = "cells";
  segment.rows.forEach((row, i) => cells.append(rowCell(row, number * segment.rows.length + i, before?.segments[number]?.rows[i])));
  box.append(head, cells);
  return box;
}

function placeOf(page) {
  return ["absent", `row ${page.at}`, `frame ${page.at}`][page.place];
}

function pageCell(page, number, before) {
  const owned = page.undo > 0;
  const back = ["", ", goes back to zeros", `, goes back to row ${page.shadow}`][page.undo];
  const changed = before && (before.place !== page.place || before.at !== page.at || before.undo !== page.undo);
  const text = `${number} ${["·", `r${page.at}`, `f${page.at}`][page.place]}`;
  const title = `page ${number}: ${placeOf(page)}${owned ? `, owned by slot ${page.slot}${back}` : ""}`;
  const found = cell(`${["absent", "kept", "held"][page.place]}${owned ? " owned" : ""}${changed ? " changed" : ""}`, text, title);
  found.dataset.page = number;
  return found;
}

function frameCell(page, frame, before) {
  const changed = before && before.frames[frame] !== page;
  const text = page === null ? "" : `page ${page}`;
  const found = cell(`${page === null ? "free" : "held"}${changed ? " changed" : ""}`, text, `frame ${frame}: ${text || "free"}`);
  if (page !== null) found.dataset.page = page;
  return found;
}

function jobText({ kind, segment }) {
  return {
    none: "", copy: `job: segment ${segment}'s kept rows are copied to the spare`,
    switch: `job: references go from segment ${segment} to its copies`, erase: "job: the spare is erased",
  }[kind];
}

// Draws a picture, and marks what differs from the one before. Without power the last picture is dimmed.
export function draw(shown, before) {
  at("shown").classList.toggle("off", !shown);
  if (!shown) return;
  at("segments").replaceChildren(...shown.segments.map((_, number) => segmentBox(shown, number, before)));
  at("frames").replaceChildren(...shown.frames.map((page, frame) => frameCell(page, frame, before)));
  at("pages").replaceChildren(...shown.pages.map((page, number) => pageCell(page, number, before?.pages[number])));
  at("job").textContent = jobText(shown.job);
}

// Draws what a restart finds after each failure of power in a line: a line of cells for either half of the operation.
export function drawCuts(line, { alike, found }) {
  const text = document.createElement("p"), most = found.length / 2;
  text.textContent = most === 0 ? `${line}: no operation` : `${line}: ${most} operations; a restart finds the words of ${alike ? "before, which are those of after" : "before (white) or after (blue)"}`;
  const halves = [0n, 1n].map((half) => {
    const cells = document.createElement("div");
    cells.append(...found.filter(({ g }) => g === half).map(({ k, is }) => cell(is, k, `cut at operation ${k}, which leaves the ${half ? "new" : "old"}: the words of ${is}`)));
    return cells;
  });
  at("cut-cells").replaceChildren(text, ...halves);
}

const COLOURS = { free: [255, 255, 255], kept: [47, 127, 209], shadow: [176, 79, 196], dead: [150, 150, 150] };

// Draws the rows alone, a dot each, a line of dots for each segment.
export function drawSmall(canvas, shown) {
  const rows = shown.segments[0].rows.length;
  canvas.width = rows;
  canvas.height = shown.segments.length;
  const context = canvas.getContext("2d"), dots = context.createImageData(rows, shown.segments.length);
  shown.segments.forEach((segment, s) => segment.rows.forEach((row, i) => {
    dots.data.set([...COLOURS[row.kind], 255], 4 * (s * rows + i));
  }));
  context.putImageData(dots, 0, 0);
}
