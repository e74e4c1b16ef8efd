# debug: the walks of requests at interrupt files, with each ruling on an entry of an MSI page table
ram 0x80000000 0x100000
window 0x28000000 0x10000
capabilities msi_flat=1
