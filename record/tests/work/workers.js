const fs = require('fs'), w = require('worker_threads');
if (w.isMainThread) {
  fs.writeFileSync('node.txt', 'x');
  fs.renameSync('node.txt', 'out/node.txt');
  for (let n = 0; n < 3; n++) new w.Worker(__filename, {workerData: n});
  require('child_process').execSync('ls');
  fs.rmSync('out/node.txt');
} else {
  fs.mkdirSync('w' + w.workerData);
  fs.readFileSync('words.txt');
  fs.rmdirSync('w' + w.workerData);
}
