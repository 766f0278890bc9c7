// Which machine and which run: on the page, on its print and in the title of its tab.

// The name of the run: that of the file, or what the address says.
function runName() {
  const named = new URLSearchParams(location.hash.slice(1)).get("name");
  const file = location.protocol === "about:" || location.protocol === "blob:" ? "" : decodeURIComponent(location.pathname.split("/").pop() || "");
  return named || file.replace(/\.x?html?$/, "") || "rv_sim";
}

function kindWords(name, kind) {
  return name + " " + counted(kind.units, "unit") + ", " + counted(kind.stations, "station") + ", latency " + kind.latency + (kind.pipelined ? "" : ", not pipelined");
}

function machineWords(machine) {
  const { cache, predictor } = machine;
  return [
    "fetch " + machine.fetch_width + ", dispatch " + machine.dispatch_width + ", commit " + machine.commit_width + ", bus " + machine.bus_width,
    "reorder buffer " + machine.rob + ", fetch buffer " + machine.fetch_buffer + ", store queue " + machine.store_queue,
    ...kinds.map((kind) => kindWords(kind, machine[kind])),
    "forward " + machine.forward,
    "cache " + [cache.sets, cache.ways, cache.line].join("\u00d7") + " bytes, hit " + cache.hit + ", miss " + cache.miss + ", write-back " + cache.write_back,
    "predictor " + predictor.kind + (predictor.entries === undefined ? "" : " " + predictor.entries) + ", recovery " + machine.recovery,
  ].join("; ");
}

function showMachine(run) {
  const { machine } = run, name = runName();
  draw("machine", element("b", {}, name), " " + machineWords(machine));
  document.title = name + ": width " + machine.fetch_width + ", reorder buffer " + machine.rob + ", " + machine.predictor.kind;
}
