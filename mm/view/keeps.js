// What a kernel keeps: the picture, whose style is its own, and the same in words.

function buildKeeps() {
  const { svg, lines } = RUN.keeps, picture = el("div", { role: "img", "aria-label": "A picture of the same",
    style: "width: min(100%, 45rem)" });
  picture.attachShadow({ mode: "open" }).innerHTML = `<style>svg { width: 100%; height: auto; }</style>${svg}`;
  byId("audit").after(el("section", { id: "keeps", class: "pane wide", style: "order: 6", "aria-labelledby": "keeps-title" },
    el("h2", { id: "keeps-title" }, "What the kernel keeps"),
    el("p", { class: "soft" }, "In any run of this image and of images with other callers, whatever code these have."),
    picture,
    el("div", { class: "scroll", tabindex: "0", role: "region", "aria-label": "What the kernel keeps, in words" },
      el("pre", {}, lines.join("\n")))));
}

buildKeeps();
