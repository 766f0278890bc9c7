# [2J
        bad[31m x1
