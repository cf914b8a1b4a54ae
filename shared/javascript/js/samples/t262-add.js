// Agents of test262's hosts.
for (const by of [1, 2]) {
  $262.agent.start(`
    $262.agent.receiveBroadcast(function(sab) {
      const view = new Int16Array(sab);
      $262.agent.report('was ' + Atomics.add(view, 1, ${by}));
      $262.agent.leaving();
    });
  `);
}
$262.agent.broadcast(new SharedArrayBuffer(8));
