// The digit or J that was pressed with Alt, or nothing. On a Mac Option and such a key write another sign: there its place on the keyboard says it.
function keyWithAlt({ altKey, ctrlKey, key, code }) {
  const isOtherSign = !/^[ -~]$/.test(key), place = isOtherSign ? code.replace(/^(Digit|Key)/, "") : "";
  return (altKey && !ctrlKey && [key, place].find((each) => /^[\djJ]$/.test(each))) || "";
}
