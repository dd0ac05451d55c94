// What is drawn on the page now, read from its elements alone.
(() => {
  const all = (root, words) => [...root.querySelectorAll(words)];
  const numbers = (d) => d.match(/-?\d+(?:\.\d+)?/g).map(Number);
  const visible = (node) => node.getClientRects().length > 0;

  function ladder(picture) {
    const live = [];
    const wrong = [];
    for (const row of all(picture, ".row")) {
      for (const wire of all(row, ".wire.live[data-places]")) {
        const [x, , end] = numbers(wire.getAttribute("d"));
        const [first, places] = [Number(wire.dataset.column), Number(wire.dataset.places)];
        if (Math.abs(x - first * 10) > 1 || Math.abs(end - (first + places) * 10) > 1) wrong.push(`a wire of row ${row.dataset.row} isn't where it says`);
        if (parseFloat(getComputedStyle(wire).strokeWidth) < 4) wrong.push(`power in row ${row.dataset.row} is thin`);
        for (let k = 0; k < places; k += 1) live.push([Number(row.dataset.row), first + k]);
      }
      for (const part of all(row, ".join.live, .upright.live")) live.push([Number(row.dataset.row), Number(part.dataset.column)]);
    }
    const size = picture.viewBox.baseVal;
    const words = all(picture, ".row > .word").map((it) => {
      const box = it.getBBox();
      if (box.x < -13 || box.x + box.width > size.width + 1 || !visible(it)) wrong.push(`${it.textContent} is cut`);
      return [Number(it.parentNode.dataset.row), Math.round(it.getAttribute("x") / 10), it.textContent];
    });
    const symbols = all(picture, ".contact, .coil").map((it) => {
      const letter = it.querySelector(".letter")?.textContent;
      const sign = letter ?? (all(it, ".body").length > 1 ? "/" : " ");
      const isCoil = it.querySelector("circle.inside") !== null;
      return [Number(it.dataset.row), Number(it.dataset.column), isCoil, sign, it.dataset.name, it.classList.contains("live")];
    });
    const boxes = all(picture, ".box").map((it) => [Number(it.dataset.row), Number(it.dataset.column), it.dataset.name]);
    const pins = all(picture, ".pin").map((it) => [Number(it.closest(".row").dataset.row), Math.round(it.getAttribute("x") / 10), it.textContent]);
    const comments = all(picture, ".row > .comment").map((it) => [Number(it.parentNode.dataset.row), Math.round(it.getAttribute("x") / 10), it.textContent]);
    const thin = all(picture, ".wire:not(.live)").some((it) => parseFloat(getComputedStyle(it).strokeWidth) > 2);
    if (thin) wrong.push("a line without power is thick");
    const worths = all(picture, ".worth").map((it) => [it.previousSibling.textContent, it.textContent]);
    const on = all(picture, ".row > .word.on").map((it) => [Number(it.parentNode.dataset.row), Math.round(it.getAttribute("x") / 10)]);
    return { live, words, symbols, boxes, pins, comments, worths, on, wrong };
  }

  function timing(node) {
    const names = all(node, ".track:not(.head)").map((it) => [it.querySelector(".name").textContent, it.querySelector("output").textContent]);
    const waves = all(node, ".variable").map((it) => [it.dataset.name, it.querySelector(".wave").getAttribute("d"), all(it, ".value").map((text) => text.textContent)]);
    const cursor = node.querySelector(".cursor");
    const cut = all(node, ".track .name").filter((it) => it.scrollWidth > it.clientWidth + 1 && it.clientWidth > 0).map((it) => it.textContent);
    const [layer, width] = [node.querySelector("svg.waves"), Number(cursor.getAttribute("width"))];
    const first = Math.round(parseFloat(layer.style.left) / width);
    const last = first + Math.round((Number(layer.getAttribute("width")) - 2) / width);
    return { names, waves, cursor: Number(cursor.getAttribute("x")), width, first, last, room: node.clientWidth - node.querySelector(".names").offsetWidth, cut };
  }

  function lanes(node) {
    const heads = all(node, ".lane-head").map((it) => ({ name: it.querySelector("b").textContent, left: parseFloat(it.style.left), width: it.offsetWidth, cut: it.scrollWidth > it.clientWidth }));
    const events = all(node, ".event").map((it) => {
      const point = it.querySelector(".point");
      const sign = it.querySelector(".point") ?? it.querySelector(".arrival, .mark-ring, .break, .heard, .fault-sign");
      const labels = all(it, ".label");
      return {
        line: Number(it.dataset.line), y: Number(it.querySelector(".number").getAttribute("y")) - 4, labels: labels.map((text) => text.textContent),
        ends: labels.map((text) => text.getBBox().x + text.getBBox().width), task: point?.dataset.task ?? null, fill: point ? getComputedStyle(point).fill : null,
        shape: point?.getAttribute("d").replace(/[^A-Z]/g, "") ?? null, x: sign ? sign.getBBox().x + sign.getBBox().width / 2 : null,
        isMark: it.classList.contains("mark"), kinds: [...it.classList], broken: it.querySelector(".break:not(.risen)") !== null,
        ring: it.querySelector(".mark-ring") !== null,
      };
    });
    const ends = (d) => {
      const n = numbers(d);
      return [n[0], n[1], n[n.length - 2], n[n.length - 1]];
    };
    const arrows = all(node, ".arrows .arrow").map((it) => ({
      from: it.dataset.from, to: it.dataset.to, dashed: getComputedStyle(it.querySelector(".shaft")).strokeDasharray !== "none",
      ends: ends(it.querySelector(".shaft").getAttribute("d")), colour: getComputedStyle(it.querySelector(".shaft")).stroke,
    }));
    const deliveries = all(node, ".delivery-line:not(.sample *)").filter((it) => it.dataset.from).map((it) => ({ from: it.dataset.from, to: it.dataset.to, ends: ends(it.getAttribute("d")) }));
    const breaks = all(node, ".lane").map((it) => (it.getAttribute("d").match(/M/g).length - 1));
    const chips = all(node, ".chips .chip").map((it) => it.textContent);
    const tracks = all(node, ".lane-track").map((it) => [it.dataset.name, all(it, ".value").map((text) => [Number(text.getAttribute("y")) - 11, text.textContent])]);
    return { heads, events, arrows, deliveries, breaks, chips, tracks };
  }

  return {
    sections: all(document, "main > section").map((it) => [it.dataset.form, it.dataset.lines]),
    ladders: all(document, "section .sheet .ladder").map(ladder),
    timings: all(document, ".timing").map(timing),
    lanes: all(document, ".events").map(lanes),
    verdicts: all(document, ".verdict").map((it) => [it.querySelector(".big").textContent, it.querySelector(".told").textContent, it.querySelector(".command")?.textContent ?? ""]),
    texts: all(document, "section .lines").map((it) => it.textContent),
    title: document.querySelector("h1").textContent,
  };
})()
