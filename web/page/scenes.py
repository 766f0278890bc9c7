"""What `try` types and sends, and what it compares with."""
import base64
import subprocess
import zlib

SIZES = ((400, 800), (1280, 800), (1920, 1080))

LOOP = """        la   x1, array
        li   x2, 4
loop:   lw   x3, 0(x1)
        add  x4, x4, x3
        addi x1, x1, 4
        addi x2, x2, -1
        bnez x2, loop
        ebreak
        .data
array:  .word 1, 2, 3, 4
"""

# statements that hold all that HTML would take for its own
MARKUP = """# </script><script>document.title = 1</script> <b id=b>
        la   x1, text           # <img src=x onerror="document.title = 2">
        lw   x2, 0(x1)
        ebreak
        .data
text:   .ascii "</script><script>document.title = 3</script><img src=x onerror=document.title=4><b id=b>&lt;"
        .ascii "]]> --> <svg onload=alert(1)>"
"""


# what a tab shows of a job that does not run
NOTHING = "Nothing to show: the job as it stands has not run."


def packed(data):
    maker = zlib.compressobj(9, zlib.DEFLATED, -15)
    return base64.urlsafe_b64encode(maker.compress(data) + maker.flush()).decode().rstrip("=")


BOMB = packed(b"#" * 50_000_000)

# addresses, and what the page says of them
HOSTILE_ADDRESSES = (
    ("example=<img src=x onerror=document.title=1>", "no example"),
    ("example=__proto__", "no example"),
    ("example=%E0%A4%A", "no example"),
    ("job=%%%", "cannot be unpacked"),
    ("job=AAAA", "cannot be unpacked"),
    ("view=<script>document.title=1</script>&limit=1e9&cycle=<b>&follow=-&steps-cycles=99999999", "Done"),
    ("job=" + packed(b"<script>document.title=1</script>\n%%\n%%\n%%\n<img src=x onerror=alert(1)>\n"), "Refused"),
)

# The texts whose contrast to what is behind them is less than 4.5 (WCAG 2.2, 1.4.3), and the fields whose edge has less than 3 (1.4.11).
# What is disabled is left out.
FAINT = """(() => {
  const canvas = document.createElement("canvas").getContext("2d", { willReadFrequently: true });
  const painted = (colours) => { canvas.clearRect(0, 0, 1, 1); for (const each of colours) { canvas.fillStyle = each; canvas.fillRect(0, 0, 1, 1); } return [...canvas.getImageData(0, 0, 1, 1).data]; };
  const ancestors = (each) => (each ? [...ancestors(each.parentElement), each] : []);
  const behind = (each) => ["Canvas", ...ancestors(each).map((other) => getComputedStyle(other).backgroundColor)];
  const light = (colour) => colour.slice(0, 3).map((part) => (part /= 255) <= 0.04045 ? part / 12.92 : ((part + 0.055) / 1.055) ** 2.4).reduce((sum, part, k) => sum + part * [0.2126, 0.7152, 0.0722][k], 0);
  const ratio = (one, other) => { const [less, more] = [light(one), light(other)].sort((a, b) => a - b); return (more + 0.05) / (less + 0.05); };
  const opacity = (each) => ancestors(each).reduce((part, other) => part * getComputedStyle(other).opacity, 1);
  const isSeen = (each) => each.getClientRects().length > 0 && getComputedStyle(each).visibility === "visible" && !each.closest(":disabled");
  const faint = [], walker = document.createTreeWalker(document.body, NodeFilter.SHOW_TEXT);
  for (let text; (text = walker.nextNode()); ) {
    const each = text.parentElement, ground = painted(behind(each));
    if (text.data.trim() === "" || each.matches("script, style, textarea, option, optgroup") || !isSeen(each)) continue;
    const drawn = painted([...behind(each), getComputedStyle(each).color]), part = opacity(each);
    const found = ratio(drawn.map((value, k) => part * value + (1 - part) * ground[k]), ground);
    if (found < 4.5) faint.push(text.data.trim().slice(0, 30) + " " + found.toFixed(2));
  }
  for (const each of document.querySelectorAll("input:not([type=checkbox]), select, button:not(.link, [role=tab]), .editor")) {
    const ground = painted(behind(each.parentElement)), found = ratio(painted([...behind(each.parentElement), getComputedStyle(each).borderTopColor]), ground);
    if (isSeen(each) && found < 3) faint.push("the edge of " + (each.id || each.textContent) + " " + found.toFixed(2));
  }
  return faint.join("; ");
})()"""

# The numbers and choices of the bar and of the job's heads that are wider than their fields.
CUT_NAMES = """[...document.querySelectorAll("#bar input[type=number], #bar select, .head select")].filter((each) => {
  const style = getComputedStyle(each), canvas = document.createElement("canvas").getContext("2d"), arrow = 18;
  canvas.font = style.font;
  const text = each.tagName === "SELECT" ? each.options[each.selectedIndex].text : each.value;
  const room = each.offsetWidth - 2 - parseFloat(style.paddingLeft) - parseFloat(style.paddingRight) - arrow;
  return each.getClientRects().length > 0 && canvas.measureText(text).width > room;
}).map((each) => each.id).join()"""

# The colour of the ground of the picture that is seen, and of the page.
GROUND = """(async () => {
  const seen = [...document.querySelectorAll("#shown img")].find((each) => each.getClientRects().length > 0), canvas = document.createElement("canvas").getContext("2d");
  await seen.decode();
  canvas.drawImage(seen, 0, 0);
  return ["rgb(" + [...canvas.getImageData(1, 1, 1, 1).data].slice(0, 3).join(", ") + ")", getComputedStyle(document.body).backgroundColor];
})()"""

# What scrolls, and cannot be scrolled by keys: nothing in it takes the focus. (Chromium and Firefox give it to such a box, WebKit does not.)
UNREACHED = """[...document.querySelectorAll("body *")].filter((each) => {
  const { overflowX, overflowY } = getComputedStyle(each), scrolls = (way) => way === "auto" || way === "scroll";
  const isCut = (scrolls(overflowX) && each.scrollWidth > each.clientWidth + 1) || (scrolls(overflowY) && each.scrollHeight > each.clientHeight + 1);
  return isCut && each.getClientRects().length > 0 && ![each, ...each.querySelectorAll("*")].some((inner) => inner.tabIndex >= 0);
}).map((each) => each.id || each.className || each.tagName).join()"""

# for how many milliseconds at most the page did nothing, in one second and a half
STANDSTILL = """new Promise((tell) => {
  let last = performance.now(), worst = 0;
  const timer = setInterval(() => { worst = Math.max(worst, performance.now() - last); last = performance.now(); }, 20);
  setTimeout(() => { clearInterval(timer); tell(worst); }, 1500);
})"""


class NotSo(Exception):
    """Something that should be so, and is not."""


def so(is_so, otherwise):
    if not is_so:
        raise NotSo(otherwise)


class Native:
    """The program itself, where one was named."""

    def __init__(self, path):
        self.path, self.count = path, 0

    def prints(self, words, job, output):
        if self.path is None:
            return True
        self.count += 1
        ran = subprocess.run([self.path, *words], input=job.encode(), stdout=subprocess.PIPE, stderr=subprocess.DEVNULL)
        return ran.stdout == output


# descriptions in all the ways in which keys may stand
DESCRIPTIONS = (
    "",
    "# name: a machine\nrob = 8 # few\nalu.units = 4\n\n[cache]\nsets = 4\nline = 0x20\n[predictor]\nkind = 'not_taken'\n",
    "cache = { sets = 4, ways = 1 }\nmem = {latency=2}\nram_size = 131_072\ndiv.pipelined = true",
    "[alu]\r\nunits = 1\r\n[mul]\r\nlatency = 5\r\n",
    "\"rob\" = 32\n'recovery' = \"early\"\nalu . units = 3\n",
)

# What the form reads of a text, and what it writes into it, against the machine that the program says it is: the differences.
FORM_AND_PROGRAM = """(async (descriptions) => {
  const wrong = [], flat = (values) => Object.entries(values).flatMap(([key, value]) => (typeof value === "object" ? Object.entries(value).map(([name, own]) => [key + "." + name, String(own)]) : [[key, String(value)]]));
  const machineOf = async (text) => {
    const made = await runner.call(["states", "--cycles", "1"], ended(text) + "%%\\nebreak\\n");
    return made.status === 0 ? new Map(flat(JSON.parse(textOf(made.output).split("\\n")[0]).machine)) : new Map([["refused", textOf(made.errors)]]);
  };
  const compare = async (text, what) => {
    const read = valuesOf(text, KEYS), machine = await machineOf(text);
    for (const [key, value] of machine) if (String(Number(read.get(key))) !== value && read.get(key) !== value) wrong.push(what + ": " + key + " is " + value + ", the form has " + read.get(key));
  };
  let count = 0;
  for (const text of descriptions) {
    await compare(text, text);
    for (const row of KEYS) {
      const value = row.isBoolean ? row.default !== "true" : row.choices ? (row.isNumber ? Number(row.choices[2]) : row.choices[0]) : row.least + (row.multiple || 1);
      const with_ = withKey(text, row.key, value), before = valuesOf(text, KEYS), after = valuesOf(with_, KEYS);
      if (after.get(row.key) !== String(value)) wrong.push(row.key + " is not written into " + text);
      for (const [key, was] of before) if (key !== row.key && after.get(key) !== was) wrong.push(row.key + " changes " + key + " of " + text);
      await compare(with_, row.key + " in " + text);
      if (readToml(text).values.has(row.key) && !readToml(text).braces.has(row.key.split(".")[0]) && readToml(withoutKey(text, row.key)).values.has(row.key)) wrong.push(row.key + " stays in " + text);
      count += 1;
    }
  }
  return JSON.stringify([wrong, count]);
})"""
