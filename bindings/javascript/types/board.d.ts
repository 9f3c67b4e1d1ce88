/** The module, which esbuild puts into the package as base64. */
declare module "board.wasm" {
  const base64: string;
  export default base64;
}
