"use strict";
throw new Error('agc is an ES module, and loads its WebAssembly first: use `await import("agc")`, not require');
