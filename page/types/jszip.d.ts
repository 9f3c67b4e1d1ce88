/** What the page uses of jszip: Debian's own types need those of other packages. */
declare module "jszip" {
  interface Stream {
    on(name: "data", listener: (piece: Uint8Array) => void): Stream;
    on(name: "error" | "end", listener: () => void): Stream;
    pause(): Stream;
    resume(): Stream;
  }
  class JSZip {
    readonly files: Readonly<Record<string, unknown>>;
    static loadAsync(bytes: ArrayBuffer): Promise<JSZip>;
    file(name: string): { internalStream(type: "uint8array"): Stream } | null;
    file(name: string, content: string, options: { readonly date: Date }): JSZip;
    generateAsync(options: { readonly type: "uint8array"; readonly compression: "DEFLATE" }): Promise<Uint8Array>;
  }
  export default JSZip;
}
