// A fungible token: each amount is in one vault.
access(all) contract Coin {

    // The right to take from a vault.
    access(all) entitlement Withdraw

    access(all) event Issue(amount: UFix64)
    access(all) event Burn(amount: UFix64)
    access(all) event Withdrawal(vault: UInt64, amount: UFix64, account: Address?)
    access(all) event Deposit(vault: UInt64, amount: UFix64, account: Address?)

    access(all) let vaultPath: StoragePath
    access(all) let receiverPath: PublicPath
    access(all) let minterPath: StoragePath

    // What was issued, less what was burned.
    access(all) var supply: UFix64

    access(all) resource interface Receiver {
        access(all) fun deposit(from: @Vault)
    }

    access(all) resource interface Provider {
        access(Withdraw) fun withdraw(amount: UFix64): @Vault {
            post { result.balance == amount: "another amount came out" }
        }
    }

    access(all) resource Vault: Receiver, Provider {
        access(all) var balance: UFix64

        init(balance: UFix64) {
            self.balance = balance
        }

        access(Withdraw) fun withdraw(amount: UFix64): @Vault {
            pre { self.balance >= amount: "the balance is too small" }
            self.balance = self.balance - amount
            emit Withdrawal(vault: self.uuid, amount: amount, account: self.owner?.address)
            return <-create Vault(balance: amount)
        }

        access(all) fun deposit(from: @Vault) {
            self.balance = self.balance + from.balance
            emit Deposit(vault: self.uuid, amount: from.balance, account: self.owner?.address)
            destroy from
        }
    }

    // Whoever has a minter can issue.
    access(all) resource Minter {
        access(all) fun issue(amount: UFix64): @Vault {
            pre { amount > 0.0: "nothing would be issued" }
            Coin.supply = Coin.supply + amount
            emit Issue(amount: amount)
            return <-create Vault(balance: amount)
        }
    }

    access(all) fun emptyVault(): @Vault {
        return <-create Vault(balance: 0.0)
    }

    access(all) fun burn(_ vault: @Vault) {
        self.supply = self.supply - vault.balance
        emit Burn(amount: vault.balance)
        destroy vault
    }

    init() {
        self.vaultPath = /storage/coin
        self.receiverPath = /public/coin
        self.minterPath = /storage/coinMinter
        self.supply = 0.0
        self.account.storage.save(<-create Minter(), to: self.minterPath)
    }
}
