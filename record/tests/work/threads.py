import os, threading
from concurrent.futures import ThreadPoolExecutor
def work(n):
    name = f"out/t{n}"
    with open(name, "w") as file:
        file.write(str(n))
    os.rename(name, f"out/u{n}")
    try:
        os.link(f"out/u{n}", f"src/u{n}")
        os.truncate(f"out/u{n}", 0)
    except OSError:
        pass
    return open("words.txt").readline()
def attempt(n):
    try:
        return work(n)
    except OSError as error:
        return str(error)
with ThreadPoolExecutor(4) as pool:
    print(list(pool.map(attempt, range(24))))
thread = threading.Thread(target=os.listdir)
thread.start()
thread.join()
