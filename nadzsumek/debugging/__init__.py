"""The debugger of the lab in editors, by the Debug Adapter Protocol: `lab dap`. See docs/guides/DEBUGGING.md."""
