import multiprocessing, os, subprocess
def work(n):
    with open(f"out/p{n}", "w") as file:
        file.write(subprocess.run(["/bin/echo", str(n)], capture_output=True, text=True).stdout)
    os.remove(f"out/p{n}")
for n in range(6):
    child = multiprocessing.get_context("fork").Process(target=work, args=(n,))
    child.start()
    child.join()
subprocess.Popen(["/bin/cat"], stdin=subprocess.PIPE).communicate(b"x")
os.posix_spawn("/bin/ls", ["ls"], os.environ)
os.wait()
