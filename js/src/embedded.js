/**
 * Gives the module that build/js has written as a text, which is hardly larger than the module when both are packed.
 * It is compiled at the first call. The characters from ~ down to #, without the backslash, are the numbers 0 to 90.
 * From 3 on, a number is a byte and 3 more; the others stand with the next number for a larger byte.
 */
export function embedded(text) {
  let module;
  return () => (module ??= new WebAssembly.Module(decoded(text)));
}

function decoded(text) {
  const bytes = new Uint8Array(text.length);
  let length = 0, larger = 0;
  for (let i = 0; i < text.length; i++) {
    const code = text.charCodeAt(i), number = code > 92 ? 126 - code : 125 - code;
    if (larger) {
      bytes[length++] = larger + number;
      larger = 0;
    } else if (number > 2) bytes[length++] = number - 3;
    else larger = 88 + 91 * number;
  }
  return bytes.subarray(0, length);
}
