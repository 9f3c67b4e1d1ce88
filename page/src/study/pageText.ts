/** The page's own text, as it was before anything was shown in it. */

const START = '<script type="application/json" id="study-data">';
const now = document.documentElement.outerHTML;
// The class is what first.js sets.
const original = `<!DOCTYPE html>\n${now.replace(' class="begun"', "")}\n`;

/** The page with data in it. */
export function pageText(data: string): string {
  const from = original.indexOf(START) + START.length;
  const to = original.indexOf("</script>", from);
  return original.slice(0, from) + data + original.slice(to);
}
