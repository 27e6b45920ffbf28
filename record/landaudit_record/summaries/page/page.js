// Filters and sorting for the table of refusals, doors for the tree, and copying. All else of the page works without
// this. What is seen is in the page's address too: #abi=3&at=/etc&find=passwd&sort=place, with -place for the other way
// round; `at` is a directory.

const buttons = [...document.querySelectorAll(".abis input")];
const table = document.querySelector("table.refusals");
const body = table?.tBodies[0];
const rows = body ? [...body.rows] : [];
const heads = table ? [...table.tHead.rows[0].cells] : [];
const names = heads.map((head) => head.textContent);
const find = document.getElementById("find");
const left = document.getElementById("left");
const each = document.getElementById("each");
const placed = [...document.querySelectorAll("[data-at]")];
const inOrder = new Intl.Collator("en", { numeric: true });
const texts = new Map();
let sorted = "", at = "";

// A page without ABIs has no buttons, and shows all rows.
const abi = () => buttons.find((button) => button.checked)?.value;
const isOf = (row) => !buttons.length || row.classList.contains(`a${abi()}`);

/** What a cell says at the ABI that is chosen. */
function said(cell) {
    return (cell.querySelector(`:scope > .a${abi()}`) ?? cell).textContent;
}

const times = (row) => Number(said(row.cells[0]).replaceAll(",", "")) || 0;

function textOf(row) {
    if (!texts.has(row)) {
        texts.set(row, [...row.cells].map((cell) => cell.textContent).join("\n").toLowerCase());
    }
    return texts.get(row);
}

/** Whether a path is in a directory, or is it. */
const isIn = (path, directory) => directory === "/" || path === directory || path.startsWith(`${directory}/`);

/** Whether the place of a row, or one of its paths, is where the reader looks. */
function isThere(row) {
    const cell = row.querySelector(".place"), paths = [...cell.querySelectorAll(".one")];
    return !at || (paths.length ? paths : [cell]).some((one) => isIn(one.textContent, at));
}

/** Shows the groups and directories where the reader looks, and says where that is. */
function look() {
    for (const one of placed) {
        if (one.matches(".card")) {
            one.hidden = at !== "" && !isIn(one.dataset.at, at) && !isIn(at, one.dataset.at);
        } else {
            one.classList.toggle("chosen", one.dataset.at === at);
        }
    }
    place.hidden = !at;
    place.querySelector("span").textContent = at;
}

/** Shows the rows that have all words, and says how many they are. */
function filter() {
    const words = find.value.toLowerCase().split(/\s+/).filter(Boolean);
    let kinds = 0, calls = 0;
    for (const row of rows) {
        const has = isThere(row) && words.every((word) => textOf(row).includes(word));
        if (row.hidden === has) {
            row.hidden = !has;
        }
        if (has && isOf(row)) {
            kinds += 1;
            calls += times(row);
        }
    }
    const counted = (number, thing) => `${number.toLocaleString("en")} ${thing}${number === 1 ? "" : "s"}`;
    left.textContent = `${counted(kinds, "kind")}, ${counted(calls, "call")}`;
}

/** Sorts by a column; `-` before its name turns the order. */
function sort(by) {
    const column = names.indexOf(by.replace(/^-/, ""));
    if (column < 0) {
        return;
    }
    const turned = by.startsWith("-") ? -1 : 1;
    const keyed = rows.map((row) => [column ? said(row.cells[column]) : times(row), row]);
    const compare = column ? inOrder.compare : (one, other) => one - other;
    keyed.sort(([one], [other]) => turned * compare(one, other));
    body.append(...keyed.map(([, row]) => row));
    for (const head of heads) {
        head.removeAttribute("aria-sort");
    }
    heads[column].setAttribute("aria-sort", turned < 0 ? "descending" : "ascending");
    sorted = by;
}

/** Keeps in the address what is seen. */
function keep() {
    const seen = new URLSearchParams();
    if (buttons.length && !buttons.at(-1).checked) {
        seen.set("abi", abi());
    }
    if (at) {
        seen.set("at", at);
    }
    if (find?.value) {
        seen.set("find", find.value);
    }
    if (sorted) {
        seen.set("sort", sorted);
    }
    history.replaceState(null, "", `#${seen}`);
}

/** Shows what the address says. */
function follow() {
    if (!location.hash.includes("=")) {
        return;
    }
    const asked = new URLSearchParams(location.hash.slice(1));
    const chosen = buttons.find((button) => button.value === asked.get("abi")) ?? buttons.at(-1);
    if (chosen) {
        chosen.checked = true;
    }
    at = asked.get("at") ?? "";
    look();
    if (table) {
        find.value = asked.get("find") ?? "";
        sort(asked.get("sort") ?? "");
        filter();
        each.open ||= find.value !== "";
    }
}

/** Follows a link of the page to some kinds; the ABI and the order stay. */
function go(event) {
    const link = event.target.closest("a[href*='=']");
    if (link) {
        event.preventDefault();
        const asked = new URLSearchParams(link.getAttribute("href").slice(1));
        const there = asked.get("at") ?? "";
        const again = link.matches("[data-at]") && there === at;
        at = again ? "" : there;
        look();
        if (table) {
            find.value = asked.get("find") ?? "";
            filter();
            if (link.closest(".card")) {
                each.open = true;
                each.scrollIntoView();
            }
        }
        keep();
    }
}

/** Copies the text beside a button; where the browser forbids that, chooses it, to be copied by keys. */
async function copy(button) {
    const text = button.parentElement.querySelector("pre");
    try {
        await navigator.clipboard.writeText(text.textContent);
        button.textContent = "Copied";
    } catch {
        getSelection().selectAllChildren(text);
        button.textContent = "Chosen: copy it";
    }
    setTimeout(() => { button.textContent = "Copy"; }, 2000);
}

const place = document.getElementById("at");
const all = place.querySelector("button");
all.addEventListener("click", () => {
    at = "";
    look();
    if (table) {
        filter();
    }
    keep();
});
document.querySelector("main").addEventListener("click", go);
for (const button of document.querySelectorAll(".copy")) {
    button.hidden = false;
    button.addEventListener("click", () => copy(button));
}

for (const button of buttons) {
    button.addEventListener("change", () => {
        if (table) {
            sort(sorted);
            filter();
        }
        keep();
    });
}
if (table) {
    document.getElementById("filter").hidden = false;
    find.addEventListener("input", () => { filter(); keep(); });
    heads.forEach((head, column) => {
        const button = document.createElement("button");
        button.type = "button";
        button.append(...head.childNodes);
        head.append(button);
        button.addEventListener("click", () => {
            const first = column ? names[column] : `-${names[column]}`;
            const other = column ? `-${names[column]}` : names[column];
            sort(sorted === first ? other : first);
            keep();
        });
    });
    filter();
}

const doors = document.getElementById("doors");
if (doors) {
    doors.hidden = false;
    const directories = [...document.querySelectorAll(".tree details")];
    document.getElementById("open").addEventListener("click", () => {
        for (const door of directories) {
            const refused = door.querySelector(":scope > summary > .refused");
            door.open = door.open || Number(said(refused).replaceAll(",", "")) > 0;
        }
    });
    document.getElementById("close").addEventListener("click", () => {
        directories.forEach((door, place) => { door.open = place === 0; });
    });
}
addEventListener("hashchange", follow);
follow();
