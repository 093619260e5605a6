// As much of Node's types as the tests of ours need, where @types/node isn't installed.

declare class Buffer extends Uint8Array {
  static from(data: any, ...more: any[]): Buffer;
}

declare module 'node:stream' {
  export class Transform {
    pipe(to: Transform): Transform;
  }
}
