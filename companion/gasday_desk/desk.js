// Shows what changed without a click. All pages work without it.
"use strict";
(() => {
  const body = document.body, address = body.dataset.events;
  if (!address || !document.querySelector("[data-live]")) return;
  let seen = Number(body.dataset.version), busy = false;

  // Takes the parts of the page anew that may change, but none in which somebody is typing.
  async function refresh() {
    if (busy) return;
    busy = true;
    try {
      const answer = await fetch(location.href);
      if (!answer.ok || answer.redirected) return;
      const fresh = new DOMParser().parseFromString(await answer.text(), "text/html");
      for (const old of document.querySelectorAll("[data-live]")) {
        const part = fresh.getElementById(old.id);
        const inUse = old.contains(document.activeElement) || old.querySelector("details[open]");
        if (part && !inUse && part.innerHTML !== old.innerHTML) old.replaceWith(part);
      }
      seen = Number(fresh.body.dataset.version) || seen;
    } catch (error) {
      // The server is away; the next event or the next minute tries again.
    } finally {
      busy = false;
    }
  }

  let waiting = 0;
  function soon() {
    if (!waiting) waiting = setTimeout(() => { waiting = 0; refresh(); }, 700);
  }

  const source = new EventSource(address);
  source.addEventListener("changed", (event) => { if (Number(event.data) !== seen) soon(); });
  // Minutes pass too; and where there is no stream this alone refreshes.
  setInterval(() => { if (!document.hidden) refresh(); }, 30000);
})();
