-- Debug RISC-V assembly with rvdap in Neovim, by nvim-dap (https://github.com/mfussenegger/nvim-dap).
--
-- Copy this file to ~/.config/nvim/plugin/rvdap.lua. Then open a program (FILE.s), set a breakpoint with :DapToggleBreakpoint, and start
-- with :DapContinue. Nothing here has been tried.

local found, dap = pcall(require, "dap")
if not found then
  return
end

-- Over standard streams; over TCP, where nvim-dap starts rvdap on a port that is free; and over TCP to an rvdap that runs, as
-- rvdap --listen 127.0.0.1:4711 --program FILE.s, with the absolute path of FILE.s.
dap.adapters.rvdap = { type = "executable", command = "rvdap" }
dap.adapters.rvdap_tcp = {
  type = "server",
  host = "127.0.0.1",
  port = "${port}",
  executable = { command = "rvdap", args = { "--listen", "127.0.0.1:${port}", "--once" } },
}
dap.adapters.rvdap_attach = { type = "server", host = "127.0.0.1", port = 4711 }

-- ${file} is the absolute path of the file: nvim-dap names the sources of breakpoints so, and rvdap compares the two.
dap.configurations.asm = {
  { type = "rvdap", request = "launch", name = "Debug this program", program = "${file}", stopOnEntry = true },
  { type = "rvdap_tcp", request = "launch", name = "Debug this program, over TCP", program = "${file}", stopOnEntry = true },
  { type = "rvdap_attach", request = "attach", name = "Join the program at port 4711" },
}
