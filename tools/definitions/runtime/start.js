// Answers the lines of standard input by the translation whose file is named, on a stack that long frames do not fill.
'use strict';

const { Worker, isMainThread, workerData } = require('worker_threads');

if (isMainThread) {
  const worker = new Worker(__filename, {
    workerData: process.argv[2],
    resourceLimits: { stackSizeMb: 256, maxYoungGenerationSizeMb: 128, maxOldGenerationSizeMb: 4096 },
  });
  worker.on('error', error => {
    console.error(error);
    process.exitCode = 1;
  });
} else {
  const entries = require(workerData)(require('./library.js'));
  require('./lines.js').lines(require('./cases.js').answerer(entries));
}
