// Has the colours of light, or of dark, hold by choice: "light", "dark", or nothing, where the system says which.
const rulesOfNight = [];

function paint(colours) {
  const all = [...document.styleSheets].flatMap((sheet) => [...sheet.cssRules]);
  if (rulesOfNight.length === 0) rulesOfNight.push(...all.filter(({ media }) => media && /prefers-color-scheme: dark/.test(media.mediaText)));
  for (const rule of rulesOfNight) rule.media.mediaText = { light: "not all", dark: "screen" }[colours] || "screen and (prefers-color-scheme: dark)";
  for (const { style } of all) if (style && style.colorScheme) style.colorScheme = colours || "light dark";
}
