// Shows what others do as it happens: where an item changes that is on this page, or a new one may be, the part that is live is got again.
"use strict";
new EventSource("/live").onmessage = async event => {
  const {item, behind} = JSON.parse(event.data), at = new URL(location);
  if (at.pathname.startsWith("/items/") && at.pathname !== `/items/${item}`) return;
  at.searchParams.set("behind", behind);
  at.searchParams.delete("said");
  const page = new DOMParser().parseFromString(await (await fetch(at)).text(), "text/html"), live = page.getElementById("live");
  if (live) document.getElementById("live").replaceWith(live);
};
